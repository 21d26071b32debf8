// The float entry's records, and what it refuses by itself, for every program that answers such records.

const RECORD: usize = 64;

/// The line and the note of a record with a drift, which glft.rs is not asked about.
const UNASKED: (&str, &str) = ("-", "0 0 a drift");

/// The word i of a record.
fn word(record: &[u8], i: usize) -> u64 {
    u64::from_le_bytes(record[8 * i..8 * i + 8].try_into().unwrap())
}

/// Whether a record has a drift: its beta is another than a zero.
fn drifting(record: &[u8]) -> bool {
    record.len() == RECORD && f64::from_bits(word(record, 7)) != 0.0
}

/// A record's numbers, which the float entry takes, but for beta, which is a zero.
struct Entry {
    k: f64,
    alpha: f64,
    eta: f64,
    base: f64,
    bound: u32,
    tau: f64,
    q: i64,
}

/// A record's numbers; or the number and the words of its refusal, by 6, 5, 1 or 4.
fn entry_of(record: &[u8]) -> Result<Entry, (u8, &'static str)> {
    if record.len() < RECORD {
        return Err((6, "the record ends inside itself"));
    }
    let float = |i: usize| f64::from_bits(word(record, i));
    let (k, alpha, eta, base, tau) = (float(0), float(1), float(2), float(3), float(5));
    let q = word(record, 6).cast_signed();
    if [k, alpha, eta, base].iter().any(|x| !(x.is_finite() && *x > 0.0)) || !tau.is_finite() {
        return Err((5, "a float"));
    }
    let Some(bound) = u32::try_from(word(record, 4)).ok().filter(|b| (1..=200).contains(b)) else {
        return Err((1, "the bound"));
    };
    if q.unsigned_abs() > u64::from(bound) {
        return Err((4, "the holding"));
    }
    Ok(Entry { k, alpha, eta, base, bound, tau, q })
}

/// The line of a cap report.
fn cap_line(steps_needed: f64, budget: u32) -> String {
    format!("C {:016X} {budget}", steps_needed.to_bits())
}
