// What stands around the two glft.rs, for every program over them.

/// What glft.rs uses of its crate, as far as it is named there.
mod types {
    pub mod error {
        pub type MMResult<T> = Result<T, MMError>;

        #[derive(Debug, Clone, PartialEq)]
        pub enum MMError {
            InvalidConfiguration(String),
            InvalidMarketState(String),
            NumericalError(String),
            InvalidPositionUpdate(String),
            InvalidQuoteGeneration(String),
        }
    }
}

mod strategy {
    pub mod avellaneda_stoikov {
        use crate::Decimal;
        use crate::types::error::{MMError, MMResult};

        pub fn calculate_optimal_quotes(
            _: Decimal,
            _: Decimal,
            _: Decimal,
            _: Decimal,
            _: u64,
            _: Decimal,
        ) -> MMResult<(Decimal, Decimal)> {
            Err(MMError::NumericalError("left out".to_string()))
        }
    }

    pub mod platform;
    pub mod routed;
}

/// Counters that the routed glft.rs calls.
pub mod count {
    use super::{Cell, REBALANCINGS, STEPS};

    pub fn step() {
        STEPS.with(|c: &Cell<u32>| c.set(c.get() + 1));
    }

    pub fn rebalancing() {
        REBALANCINGS.with(|c: &Cell<u32>| c.set(c.get() + 1));
    }
}

thread_local! {
    static STEPS: Cell<u32> = const { Cell::new(0) };
    static REBALANCINGS: Cell<u32> = const { Cell::new(0) };
}

/// An oracle's run: `oracle routed|platform [NOTES]`. For each record of so many bytes, the last one
/// perhaps cut short, `answer` gives its line and its note; it is told whether glft.rs is routed.
fn answer_all(size: usize, answer: impl Fn(bool, &[u8]) -> (String, String)) {
    let arguments: Vec<String> = std::env::args().skip(1).collect();
    let routed = match arguments.first().map(String::as_str) {
        Some("routed") => true,
        Some("platform") => false,
        _ => panic!("oracle routed|platform [NOTES]"),
    };
    let mut notes = arguments.get(1).map(|p| BufWriter::new(std::fs::File::create(p).unwrap()));
    let mut input = Vec::new();
    std::io::stdin().read_to_end(&mut input).unwrap();
    let mut out = BufWriter::with_capacity(1 << 16, std::io::stdout());
    for record in input.chunks(size) {
        STEPS.set(0);
        REBALANCINGS.set(0);
        let (line, note) = answer(routed, record);
        writeln!(out, "{line}").unwrap();
        if let Some(notes) = &mut notes {
            writeln!(notes, "{note}").unwrap();
        }
    }
    out.flush().unwrap();
}
