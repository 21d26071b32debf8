//! Asks glft.rs from inside: a child module of it, which may name its private items.
use super::{Expm, Model, ValueVector};

include!("model.rs");

/// What `value_vector` and then `exact_distances` gave.
pub enum Reply {
    Vector { bid: Option<f64>, ask: Option<f64>, weights: Vec<f64>, offsets: Vec<f64> },
    OverCap { steps_needed: f64, budget: u32 },
    Failed(String),
}

pub fn ask(k: f64, alpha: f64, eta: f64, base: f64, bound: u32, tau: f64, q: i64) -> Reply {
    let model = model_of(k, alpha, eta, base, bound);
    let mut vv = ValueVector::new();
    match model.value_vector(tau, &mut vv) {
        Ok(()) => {}
        Err(Expm::OverCap { steps_needed, budget }) => {
            return Reply::OverCap { steps_needed, budget };
        }
        Err(Expm::Failed(error)) => return Reply::Failed(format!("{error:?}")),
    }
    match model.exact_distances(&vv, q) {
        Ok((bid, ask)) => Reply::Vector {
            bid,
            ask,
            weights: vv.w[..vv.n].to_vec(),
            offsets: vv.log_offset[..vv.n].to_vec(),
        },
        Err(error) => Reply::Failed(format!("{error:?}")),
    }
}
