// Included by the child modules of glft.rs that ask its float layer.

/// A model of these floats. gamma, a and sigma2 are read by nothing that is asked of it.
fn model_of(k: f64, alpha: f64, eta: f64, base: f64, q_max: u32) -> Model {
    let unread = f64::NAN;
    Model { k, gamma: unread, a: unread, sigma2: unread, alpha, eta, base, q_max }
}
