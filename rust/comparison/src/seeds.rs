//! Seeds of a test: the first one and how many, both printed, both to be set from outside.

use std::ops::Range;

/// The seeds of a test. SEED sets the first (to replay a case, with CASES=1), CASES how many.
pub fn seeds(name: &str, cases: u64) -> Range<u64> {
    let first = number_of("SEED").unwrap_or(1);
    let count = number_of("CASES").unwrap_or(cases);
    println!("{name}: seeds {first} to {}", first.saturating_add(count).saturating_sub(1));
    first..first.saturating_add(count)
}

fn number_of(variable: &str) -> Option<u64> {
    let text = std::env::var(variable).ok()?;
    Some(text.parse().unwrap_or_else(|_| panic!("{variable} is not a number: {text}")))
}
