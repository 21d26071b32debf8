//! Asks glft.rs from inside: a child module of it, which may name its private items.
use super::{Expm, Model, ValueVector, to_decimal, to_f64};
use crate::Decimal;

include!("model.rs");

/// The float that a `Decimal` becomes.
pub fn float_of(value: Decimal) -> f64 {
    to_f64("amount", value).unwrap()
}

/// The `Decimal` that a distance becomes.
pub fn decimal_of(distance: f64) -> Decimal {
    to_decimal("distance", distance).unwrap()
}

/// How a value vector ends: filled, over the cap, or with an error.
pub fn vector(alpha: f64, eta: f64, bound: u32, tau: f64) -> String {
    // value_vector reads neither k nor base
    let model = model_of(f64::NAN, alpha, eta, f64::NAN, bound);
    match model.value_vector(tau, &mut ValueVector::new()) {
        Ok(()) => "V".to_string(),
        Err(Expm::OverCap { steps_needed, budget }) => format!("C {steps_needed} {budget}"),
        Err(Expm::Failed(error)) => format!("E {error:?}"),
    }
}
