//! The oracle: answers floatrun's records by the published glft.rs.
//!
//!     oracle routed|platform [NOTES] < RECORDS > LINES
//!
//! `routed` is glft.rs with its elementary calls led to document 01's functions, and `platform` is
//! glft.rs as published, whose steps nothing counts (its lines have 0 for them). NOTES gets a line a
//! record: the rebalancings, the finished steps, and the words of glft.rs where it fails.
//! The float entry's own refusals, which glft.rs has in other places, are made in entry.rs: 5, 1 and 4.
//! glft.rs has no drift: a record with one gets the line `-`.
#![allow(dead_code, unexpected_cfgs)]

use std::cell::Cell;
use std::fmt::Write as _;
use std::io::{BufWriter, Read, Write};

pub use rust_decimal::Decimal;

mod elementary;

include!("around.rs");
include!("entry.rs");

/// One answer of either glft.rs, in one form.
enum Answer {
    Vector { bid: Option<f64>, ask: Option<f64>, weights: Vec<f64>, offsets: Vec<f64> },
    OverCap { steps_needed: f64, budget: u32 },
    Refused { number: u8, words: String },
}

macro_rules! ask {
    ($glft:ident, $e:expr) => {{
        use strategy::$glft::inside::{Reply, ask};
        let e: Entry = $e;
        match ask(e.k, e.alpha, e.eta, e.base, e.bound, e.tau, e.q) {
            Reply::Vector { bid, ask, weights, offsets } => {
                Answer::Vector { bid, ask, weights, offsets }
            }
            Reply::OverCap { steps_needed, budget } => Answer::OverCap { steps_needed, budget },
            Reply::Failed(words) => Answer::Refused { number: 11, words },
        }
    }};
}

fn answer(routed: bool, record: &[u8]) -> Answer {
    match entry_of(record) {
        Ok(e) if routed => ask!(routed, e),
        Ok(e) => ask!(platform, e),
        Err((number, words)) => Answer::Refused { number, words: words.to_string() },
    }
}

fn side(line: &mut String, distance: Option<f64>) {
    match distance {
        Some(d) => write!(line, " {:016X}", d.to_bits()).unwrap(),
        None => line.push_str(" -"),
    }
}

fn line_of(answer: &Answer) -> String {
    let mut line = String::new();
    match answer {
        Answer::Vector { bid, ask, weights, offsets } => {
            write!(line, "V {}", STEPS.get()).unwrap();
            side(&mut line, *bid);
            side(&mut line, *ask);
            write!(line, " {}", weights.len()).unwrap();
            for x in weights.iter().chain(offsets) {
                write!(line, " {:016X}", x.to_bits()).unwrap();
            }
        }
        Answer::OverCap { steps_needed, budget } => {
            line.push_str(&cap_line(*steps_needed, *budget));
        }
        Answer::Refused { number, .. } => write!(line, "R {number}").unwrap(),
    }
    line
}

fn note_of(answer: &Answer) -> String {
    let words = match answer {
        Answer::Refused { words, .. } => words.as_str(),
        Answer::Vector { .. } | Answer::OverCap { .. } => "",
    };
    format!("{} {} {words}", REBALANCINGS.get(), STEPS.get())
}

fn main() {
    answer_all(RECORD, |routed, record| {
        if drifting(record) {
            return (UNASKED.0.to_string(), UNASKED.1.to_string());
        }
        let answer = answer(routed, record);
        (line_of(&answer), note_of(&answer))
    });
}
