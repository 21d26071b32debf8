//! Document 01's elementary functions, module 1, with change request 2, in Rust: what the routed glft.rs
//! calls in place of the platform's. A refusal is a NaN, which glft.rs reports as a numerical error.

const LOG2E: u64 = 0x3FF71547652B82FE;
const HI: u64 = 0x3FE62E42FEE00000;
const LO: u64 = 0x3DEA39EF35793C76;

/// The routed calls: `x.exp()` of the published file becomes `x.routed_exp()`, and so on.
pub trait Routed {
    fn routed_exp(self) -> f64;
    fn routed_ln(self) -> f64;
    fn routed_ln_1p(self) -> f64;
    fn routed_sqrt(self) -> f64;
    fn routed_ceil(self) -> f64;
}

/// 2^n, for a normal one.
fn power(n: i64) -> f64 {
    assert!((-1022..=1023).contains(&n));
    f64::from_bits(u64::try_from(1023 + n).unwrap() << 52)
}

/// f and e with x = f × 2^e and f in [1, 2), of a positive finite x.
fn split(x: f64) -> (f64, i64) {
    let (x, down) = if x < power(-1022) { (x * power(54), 54) } else { (x, 0) };
    let bits = x.to_bits();
    let e = i64::try_from(bits >> 52).unwrap() - 1023;
    (f64::from_bits(bits & ((1 << 52) - 1) | 1023 << 52), e - down)
}

/// (2 × s) × P, P the sum of z^j/(2j+1) for j from 0 to 11, and z = s × s.
fn series(s: f64) -> f64 {
    let z = s * s;
    let mut sum = 1.0 / 23.0;
    for j in (0..11_u8).rev() {
        sum = sum * z;
        sum = sum + 1.0 / f64::from(2 * j + 1);
    }
    (2.0 * s) * sum
}

/// The sum of r^j/j! for j from 0 to 13.
fn exponential(r: f64) -> f64 {
    let mut factorials = [1.0_f64; 14];
    for j in 1..14_u8 {
        factorials[usize::from(j)] = factorials[usize::from(j - 1)] * f64::from(j);
    }
    let mut sum = 1.0 / factorials[13];
    for j in (0..13).rev() {
        sum = sum * r;
        sum = sum + 1.0 / factorials[j];
    }
    sum
}

impl Routed for f64 {
    fn routed_ln(self) -> f64 {
        if !self.is_finite() || self <= 0.0 {
            return f64::NAN;
        }
        let (mut f, mut e) = split(self);
        if f > 1.5 {
            f /= 2.0;
            e += 1;
        }
        let e = e as f64;
        e * f64::from_bits(HI) + (series((f - 1.0) / (f + 1.0)) + e * f64::from_bits(LO))
    }

    fn routed_ln_1p(self) -> f64 {
        if !self.is_finite() || self <= 0.0 {
            return f64::NAN;
        }
        if self < 0.5 {
            return series(self / (2.0 + self));
        }
        (1.0 + self).routed_ln()
    }

    fn routed_exp(self) -> f64 {
        if !self.is_finite() {
            return f64::NAN;
        }
        if self > 709.0 {
            return f64::INFINITY;
        }
        if self < -708.0 {
            return 0.0;
        }
        let y = self * f64::from_bits(LOG2E);
        // `as` cuts toward zero
        let n = if self < 0.0 { y - 0.5 } else { y + 0.5 } as i64;
        let r = (self - n as f64 * f64::from_bits(HI)) - n as f64 * f64::from_bits(LO);
        exponential(r) * power(n)
    }

    fn routed_sqrt(self) -> f64 {
        if !self.is_finite() || self < 0.0 {
            return f64::NAN;
        }
        self.sqrt()
    }

    fn routed_ceil(self) -> f64 {
        if !self.is_finite() {
            return f64::NAN;
        }
        self.ceil()
    }
}
