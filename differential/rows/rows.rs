//! Asks glft.rs as published, rust_decimal and the platform for the rows of docs/DIFFERENCES.md.
//!
//!     rows < QUESTIONS > ANSWERS
//!
//! A question is a line of words, and so is its answer. A float is its 16 hex digits, a decimal is written out.
//!
//!     platform NAME FLOAT            ln, ln_1p, exp, sqrt or ceil of the platform: a float
//!     float DECIMAL                  the float that glft.rs makes of a decimal
//!     decimal FLOAT                  the decimal that it makes of a float
//!     quote ENTRY MID HOLDING VOLATILITY RISK_AVERSION K A BOUND LOT_SIZE TERMINAL CURRENT MIN_SPREAD
//!                                    its quotes: `Q` bid ask, `C` needed left, or `E` error
//!     vector ALPHA ETA BOUND TAU     its value vector, from floats: `V`, `C` needed left, or `E` error
//!     first PER FROM                 the first count from FROM on that, as a decimal of counts of 1/PER, does not
//!                                    become the nearest float
//!     sample KIND SEED COUNT         how many of COUNT amounts do not become the nearest float, the smallest and the
//!                                    largest of them, the largest error of one in units in the last place, and
//!                                    which that is
#![allow(dead_code, unexpected_cfgs)]

use std::cell::Cell;
use std::io::{BufWriter, Read, Write};

pub use rust_decimal::Decimal;

mod elementary;

include!("around.rs");

use strategy::platform::inside::{decimal_of, float_of, vector};
use strategy::platform::{ExactQuotes, GLFTConfig, GLFTStrategy};

const BILLION: u64 = 1_000_000_000;
const MOST: u64 = 9_000_000_000_000_000;

fn float(word: &str) -> f64 {
    f64::from_bits(u64::from_str_radix(word, 16).unwrap())
}

fn bits(x: f64) -> String {
    format!("{:016X}", x.to_bits())
}

fn number(word: &str) -> u64 {
    word.parse().unwrap()
}

fn by_platform(name: &str, x: f64) -> f64 {
    match name {
        "ln" => x.ln(),
        "ln_1p" => x.ln_1p(),
        "exp" => x.exp(),
        "sqrt" => x.sqrt(),
        "ceil" => x.ceil(),
        _ => panic!("no function {name}"),
    }
}

fn side(price: Option<Decimal>) -> String {
    price.map_or("-".to_string(), |p| p.to_string())
}

fn quote(entry: &str, words: &[&str]) -> String {
    let decimal = |i: usize| -> Decimal { words[i].parse().unwrap() };
    // made field by field, so that the call checks it
    let config = GLFTConfig {
        risk_aversion: decimal(3),
        order_intensity_k: decimal(4),
        intensity_scale_a: decimal(5),
        max_inventory_lots: number(words[6]).try_into().unwrap(),
        lot_size: decimal(7),
        terminal_time: number(words[8]),
        min_spread: decimal(10),
    };
    let (mid, holding, volatility, current) = (decimal(0), decimal(1), decimal(2), number(words[9]));
    let asked = match entry {
        "exact" => GLFTStrategy::exact_quotes(mid, holding, &config, volatility, current),
        "wrapper" => GLFTStrategy::calculate_optimal_quotes(mid, holding, &config, volatility, current)
            .map(ExactQuotes::Quotes),
        _ => GLFTStrategy::closed_form_quotes(mid, holding, &config, volatility).map(ExactQuotes::Quotes),
    };
    match asked {
        Ok(ExactQuotes::Quotes(quotes)) => format!("Q {} {}", side(quotes.bid), side(quotes.ask)),
        Ok(ExactQuotes::OverStepCap { steps_needed, budget }) => format!("C {steps_needed} {budget}"),
        Err(error) => format!("E {error:?}"),
    }
}

/// A count of 1/per as a decimal of no more digits than it needs, made a float.
fn converted(count: u64, per: u64) -> f64 {
    float_of(Decimal::from_i128_with_scale(i128::from(count), per.ilog10()).normalize())
}

/// The float nearest to count / per: both are floats, so the quotient is rounded once.
fn nearest(count: u64, per: u64) -> f64 {
    count as f64 / per as f64
}

fn first(per: u64, from: u64) -> u64 {
    (from..=MOST).find(|&count| converted(count, per) != nearest(count, per)).unwrap()
}

/// How far the float of an amount is from it, in units in the last place of its nearest float.
fn units(amount: u64) -> f64 {
    let scale = 1075 - (nearest(amount, BILLION).to_bits() >> 52) as i32;
    // the float is a whole number of 2^-scale, but for a lower binade's last digit
    let float = (converted(amount, BILLION) * 2_f64.powi(scale + 1)) as i128 * i128::from(BILLION);
    (float - (i128::from(amount) << (scale + 1))).unsigned_abs() as f64 / (2 * BILLION) as f64
}

/// The generator splitmix64.
fn drawn(state: &mut u64) -> u64 {
    *state = state.wrapping_add(0x9E37_79B9_7F4A_7C15);
    let z = (*state ^ (*state >> 30)).wrapping_mul(0xBF58_476D_1CE4_E5B9);
    let z = (z ^ (z >> 27)).wrapping_mul(0x94D0_49BB_1331_11EB);
    z ^ (z >> 31)
}

/// An amount from 1 to the limit: all counts alike, or all numbers of binary digits alike.
fn amount(kind: &str, state: &mut u64) -> u64 {
    if kind == "uniform" {
        return 1 + drawn(state) % MOST;
    }
    loop {
        let low = 1 << (drawn(state) % 53);
        let count = low + drawn(state) % low;
        if count <= MOST {
            return count;
        }
    }
}

fn sample(kind: &str, seed: u64, count: u64) -> String {
    let mut state = seed;
    let (mut off, mut low, mut high) = (0, MOST, 0);
    let (mut most, mut at) = (0.0, 0);
    for _ in 0..count {
        let amount = amount(kind, &mut state);
        if converted(amount, BILLION) != nearest(amount, BILLION) {
            (off, low, high) = (off + 1, low.min(amount), high.max(amount));
            let far = units(amount);
            (most, at) = if far > most { (far, amount) } else { (most, at) };
        }
    }
    format!("{off} {low} {high} {most} {at}")
}

fn answer(words: &[&str]) -> String {
    match words {
        ["platform", name, x] => bits(by_platform(name, float(x))),
        ["float", decimal] => bits(float_of(decimal.parse().unwrap())),
        ["decimal", x] => decimal_of(float(x)).to_string(),
        ["quote", entry, desk @ ..] => quote(entry, desk),
        ["vector", alpha, eta, bound, tau] => {
            vector(float(alpha), float(eta), number(bound).try_into().unwrap(), float(tau))
        }
        ["first", per, from] => first(number(per), number(from)).to_string(),
        ["sample", kind, seed, count] => sample(kind, number(seed), number(count)),
        _ => panic!("no such question: {words:?}"),
    }
}

fn main() {
    let mut input = String::new();
    std::io::stdin().read_to_string(&mut input).unwrap();
    for line in input.lines() {
        println!("{}", answer(&line.split_whitespace().collect::<Vec<_>>()));
    }
}
