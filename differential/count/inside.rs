//! Asks glft.rs from inside: a child module of it, which may name its private items. It makes the first plan of a run
//! as `value_vector` does, and goes no further.
use super::{Expm, Factors, MAX_DIM, MAX_EXPM_STEPS, Model, set_factors};

include!("model.rs");

/// What the first plan gave.
pub enum Reply {
    Steps(u32),
    OverCap { steps_needed: f64, budget: u32 },
    Failed(String),
}

pub fn ask(alpha: f64, eta: f64, bound: u32, tau: f64) -> Reply {
    // a plan reads neither k nor base
    let model = model_of(f64::NAN, alpha, eta, f64::NAN, bound);
    match first_plan(&model, tau) {
        Ok(steps) => Reply::Steps(steps),
        Err(Expm::OverCap { steps_needed, budget }) => Reply::OverCap { steps_needed, budget },
        Err(Expm::Failed(error)) => Reply::Failed(format!("{error:?}")),
    }
}

/// The steps of the plan over all rows, with no offsets and the whole budget.
fn first_plan(model: &Model, tau: f64) -> Result<u32, Expm> {
    let n = model.dim()?;
    let offsets = [0.0; MAX_DIM];
    let [mut diag, mut left, mut right] = [[0.0; MAX_DIM]; 3];
    let (diag, left, right) = (&mut diag[..n], &mut left[..n], &mut right[..n]);
    model.fill_shifted_diagonal(diag);
    set_factors(&offsets[..n], left, right)?;
    let (steps, _) =
        Model::plan(tau, diag, model.eta, &Factors { left, right }, MAX_EXPM_STEPS)?;
    Ok(steps)
}
