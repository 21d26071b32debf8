//! What quotesheet does, by glft.rs as published: reads a sheet from standard input and prints a
//! line a record, in quotesheet's form but for the steps, which glft.rs does not answer.
#![allow(dead_code, unexpected_cfgs)]

use std::cell::Cell;
use std::io::{BufWriter, Read, Write};

pub use rust_decimal::Decimal;

use strategy::platform::{ExactQuotes, GLFTConfig, GLFTStrategy};

mod elementary;

include!("around.rs");

/// A number of groups of seven bits, lowest first, and the next place.
fn number(sheet: &[u8], mut at: usize) -> (u64, usize) {
    let (mut value, mut shift) = (0, 0);
    loop {
        let byte = sheet[at];
        value |= u64::from(byte & 127) << shift;
        at += 1;
        shift += 7;
        if byte < 128 {
            return (value, at);
        }
    }
}

fn amount(count: i64) -> Decimal {
    Decimal::from_i128_with_scale(i128::from(count), 9)
}

fn side(out: &mut impl Write, price: Option<Decimal>) {
    match price {
        Some(p) => write!(out, " {p:.9}").unwrap(),
        None => out.write_all(b" -").unwrap(),
    }
}

fn line(out: &mut impl Write, n: &[u64; 11]) {
    let config = GLFTConfig {
        risk_aversion: amount(n[3] as i64),
        order_intensity_k: amount(n[4] as i64),
        intensity_scale_a: amount(n[5] as i64),
        max_inventory_lots: n[6] as u32,
        lot_size: amount(n[7] as i64),
        terminal_time: n[8],
        min_spread: amount(n[10] as i64),
    };
    let holding = (n[1] >> 1) as i64 ^ -((n[1] & 1) as i64);
    match GLFTStrategy::exact_quotes(amount(n[0] as i64), amount(holding), &config, amount(n[2] as i64), n[9]) {
        Ok(ExactQuotes::Quotes(quotes)) => {
            out.write_all(b"Q").unwrap();
            side(out, quotes.bid);
            side(out, quotes.ask);
            out.write_all(b"\n").unwrap();
        }
        Ok(ExactQuotes::OverStepCap { steps_needed, budget }) => {
            writeln!(out, "C {:016X} {budget}", steps_needed.to_bits()).unwrap();
        }
        Err(error) => writeln!(out, "R {error:?}").unwrap(),
    }
}

fn main() {
    let mut sheet = Vec::new();
    std::io::stdin().read_to_end(&mut sheet).unwrap();
    let mut out = BufWriter::with_capacity(1 << 16, std::io::stdout());
    let mut at = 0;
    while at < sheet.len() {
        let mut numbers = [0; 11];
        for n in &mut numbers {
            (*n, at) = number(&sheet, at);
        }
        line(&mut out, &numbers);
    }
    out.flush().unwrap();
}
