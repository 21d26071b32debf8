//! The oracle: answers deskrun's records by the published glft.rs.
//!
//!     oracle routed|platform [NOTES] < DESKS > LINES
//!
//! `routed` is glft.rs with its elementary calls led to document 01's functions, and `platform` is
//! glft.rs as published, whose steps nothing counts (its lines have 0 for them). A line is deskrun's,
//! but its prices are the decimals that glft.rs gives. A refusal has document 01's number for the
//! error's kind; where one kind has several, the place that it came from decides. NOTES gets a line a
//! record: the rebalancings, the bits of the two distances (`-` if absent, `.` if there are none), of the
//! model's seven floats (`.` if there is no model) and of the time left (`.` in the closed form too), and
//! the words of glft.rs where it fails. glft.rs has no drift: a record with one gets the line `-`.
#![allow(dead_code, unexpected_cfgs)]

use std::cell::Cell;
use std::fmt::Write as _;
use std::io::{BufWriter, Read, Write};

pub use rust_decimal::Decimal;

use types::error::MMError;

mod elementary;

include!("around.rs");

const RECORD: usize = 104;

/// The note of a record that glft.rs is not asked about, but for its words.
const NOTHING: &str = "0 . . . . . . . . . .";

/// What a call of either glft.rs gave, in one form.
enum Answer {
    Quotes(Option<Decimal>, Option<Decimal>),
    OverCap { steps_needed: f64, budget: u32 },
    Error { error: MMError, has_model: bool },
}

/// What glft.rs reckons with and gets: the distances, where `build_quotes` is reached, and the model's
/// floats and the time, where there are such.
struct Inside {
    distances: Option<(Option<f64>, Option<f64>)>,
    floats: Option<([f64; 7], Option<f64>)>,
}

macro_rules! ask {
    ($glft:ident, $desk:expr) => {{
        use strategy::$glft::inside::{distances, floats};
        use strategy::$glft::{ExactQuotes, GLFTConfig, GLFTStrategy};
        let desk: &Desk = $desk;
        // made field by field, so that each call checks it
        let config = GLFTConfig {
            risk_aversion: desk.amount(3),
            order_intensity_k: desk.amount(4),
            intensity_scale_a: desk.amount(5),
            max_inventory_lots: desk.bound,
            lot_size: desk.amount(7),
            terminal_time: desk.words[8],
            min_spread: desk.amount(10),
        };
        let (mid, inventory, volatility) = (desk.amount(0), desk.amount(1), desk.amount(2));
        let current = desk.words[9];
        let asked = match desk.words[11] {
            0 => GLFTStrategy::exact_quotes(mid, inventory, &config, volatility, current),
            1 => GLFTStrategy::calculate_optimal_quotes(mid, inventory, &config, volatility, current)
                .map(ExactQuotes::Quotes),
            _ => GLFTStrategy::closed_form_quotes(mid, inventory, &config, volatility)
                .map(ExactQuotes::Quotes),
        };
        let counts = (STEPS.get(), REBALANCINGS.get());
        let exact = (desk.words[11] < 2).then_some(current);
        let inside = Inside {
            distances: distances(mid, inventory, &config, volatility, exact),
            floats: floats(mid, inventory, &config, volatility, exact),
        };
        let answer = match asked {
            Ok(ExactQuotes::Quotes(quotes)) => Answer::Quotes(quotes.bid, quotes.ask),
            Ok(ExactQuotes::OverStepCap { steps_needed, budget }) => {
                Answer::OverCap { steps_needed, budget }
            }
            Err(error) => Answer::Error { error, has_model: inside.floats.is_some() },
        };
        (answer, counts, inside)
    }};
}

/// A record's words.
struct Desk {
    words: [u64; 13],
    bound: u32,
}

impl Desk {
    /// None where the bound's type does not hold it.
    fn new(record: &[u8]) -> Option<Self> {
        let word = |i: usize| u64::from_le_bytes(record[8 * i..8 * i + 8].try_into().unwrap());
        let words = std::array::from_fn(word);
        let bound = u32::try_from(words[6]).ok()?;
        Some(Self { words, bound })
    }

    /// An amount with no more digits than it needs, as one is typed.
    fn amount(&self, i: usize) -> Decimal {
        let count = i128::from(self.words[i].cast_signed());
        Decimal::from_i128_with_scale(count, 9).normalize()
    }
}

/// Document 01's number for an error.
fn number(error: &MMError, has_model: bool) -> u8 {
    match error {
        MMError::InvalidConfiguration(_) => 1,
        MMError::InvalidMarketState(_) => 3,
        MMError::InvalidPositionUpdate(_) => 4,
        MMError::InvalidQuoteGeneration(_) => 14,
        MMError::NumericalError(_) if !has_model => 5,
        MMError::NumericalError(words) if words.contains("horizon too stiff") => 12,
        MMError::NumericalError(words) if words.contains("Decimal") => 13,
        MMError::NumericalError(_) => 11,
    }
}

fn side(line: &mut String, price: Option<Decimal>) {
    match price {
        Some(p) => write!(line, " {p}").unwrap(),
        None => line.push_str(" -"),
    }
}

fn line_of(answer: &Answer, exact: bool, steps: u32) -> String {
    let mut line = String::new();
    match answer {
        Answer::Quotes(bid, ask) => {
            line.push('Q');
            side(&mut line, *bid);
            side(&mut line, *ask);
            if exact {
                write!(line, " {steps}").unwrap();
            }
        }
        Answer::OverCap { steps_needed, budget } => {
            write!(line, "C {:016x} {budget} {steps}", steps_needed.to_bits()).unwrap();
        }
        Answer::Error { error, has_model } => {
            write!(line, "R {}", number(error, *has_model)).unwrap();
        }
    }
    line
}

/// A space and a float's bits, or what stands for a float that there is not.
fn bits(note: &mut String, float: Option<f64>, none: char) {
    match float {
        Some(x) => write!(note, " {:016x}", x.to_bits()).unwrap(),
        None => write!(note, " {none}").unwrap(),
    }
}

fn note_of(answer: &Answer, rebalancings: u32, inside: &Inside) -> String {
    let mut note = rebalancings.to_string();
    let (bid, ask) = inside.distances.unwrap_or_default();
    let absent = if inside.distances.is_some() { '-' } else { '.' };
    bits(&mut note, bid, absent);
    bits(&mut note, ask, absent);
    let (model, tau) = inside.floats.map_or(([None; 7], None), |(m, tau)| (m.map(Some), tau));
    for float in model {
        bits(&mut note, float, '.');
    }
    bits(&mut note, tau, '.');
    if let Answer::Error { error, .. } = answer {
        write!(note, " {error:?}").unwrap();
    }
    note
}

/// A record's line and note.
fn answer(routed: bool, record: &[u8]) -> (String, String) {
    if record.len() < RECORD {
        return ("R 6".to_string(), format!("{NOTHING} the record ends inside itself"));
    }
    if record[RECORD - 8..] != [0; 8] {
        return ("-".to_string(), format!("{NOTHING} a drift"));
    }
    let Some(desk) = Desk::new(record) else {
        return ("R 2".to_string(), format!("{NOTHING} the bound has no u32"));
    };
    let (answer, (steps, rebalancings), inside) =
        if routed { ask!(routed, &desk) } else { ask!(platform, &desk) };
    let line = line_of(&answer, desk.words[11] < 2, steps);
    (line, note_of(&answer, rebalancings, &inside))
}

fn main() {
    answer_all(RECORD, answer);
}
