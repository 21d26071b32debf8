//! The oracle of the count: answers floatrun's records with countrun's lines, by the first plan of the published
//! glft.rs, which reads all rows.
//!
//!     oracle routed|platform [NOTES] < RECORDS > LINES
//!
//! `routed` and `platform` are those of differential/vector. NOTES gets a line a record: the words of glft.rs where
//! its plan fails. What comes before any plan is made here and in entry.rs: 6, 5, 1 and 4, and 0 steps where tau is
//! at or below zero, for which `value_vector` makes none. A record with a drift gets the line `-`.
#![allow(dead_code, unexpected_cfgs)]

use std::cell::Cell;
use std::io::{BufWriter, Read, Write};

pub use rust_decimal::Decimal;

mod elementary;

include!("around.rs");
include!("entry.rs");

/// A record's line, and the words of a failure.
macro_rules! plan {
    ($glft:ident, $e:expr) => {{
        use strategy::$glft::inside::{Reply, ask};
        let e: Entry = $e;
        match ask(e.alpha, e.eta, e.bound, e.tau) {
            Reply::Steps(steps) => (format!("N {steps}"), String::new()),
            Reply::OverCap { steps_needed, budget } => {
                (cap_line(steps_needed, budget), String::new())
            }
            Reply::Failed(words) => ("R 11".to_string(), words),
        }
    }};
}

fn answer(routed: bool, record: &[u8]) -> (String, String) {
    if drifting(record) {
        return (UNASKED.0.to_string(), UNASKED.1.to_string());
    }
    match entry_of(record) {
        Ok(e) if e.tau <= 0.0 => ("N 0".to_string(), String::new()),
        Ok(e) if routed => plan!(routed, e),
        Ok(e) => plan!(platform, e),
        Err((number, words)) => (format!("R {number}"), words.to_string()),
    }
}

fn main() {
    answer_all(RECORD, answer);
}
