//! Asks glft.rs from inside: a child module of it, which may name its private items. The quotes come
//! from its public functions; this says how far a call gets, with which floats and distances.
use super::{GLFTConfig, Model, ValueVector, seconds_to_terminal};
use crate::Decimal;

/// The model's seven floats and the time left, where there is a model. The closed form has no current time.
pub fn floats(
    mid: Decimal,
    inventory: Decimal,
    config: &GLFTConfig,
    volatility: Decimal,
    current_time: Option<u64>,
) -> Option<([f64; 7], Option<f64>)> {
    let (m, _) = Model::new(mid, inventory, config, volatility).ok()?;
    let tau = current_time.and_then(|now| seconds_to_terminal(config.terminal_time, now).ok());
    Some(([m.k, m.gamma, m.a, m.sigma2, m.alpha, m.eta, m.base], tau))
}

/// The distances that `build_quotes` gets, where it is reached.
pub fn distances(
    mid: Decimal,
    inventory: Decimal,
    config: &GLFTConfig,
    volatility: Decimal,
    current_time: Option<u64>,
) -> Option<(Option<f64>, Option<f64>)> {
    let (model, q) = Model::new(mid, inventory, config, volatility).ok()?;
    let Some(current_time) = current_time else {
        return model.closed_form_distances(q).ok();
    };
    let tau = seconds_to_terminal(config.terminal_time, current_time).ok()?;
    let mut vv = ValueVector::new();
    model.value_vector(tau, &mut vv).ok()?;
    model.exact_distances(&vv, q).ok()
}
