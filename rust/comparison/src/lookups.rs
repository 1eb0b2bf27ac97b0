//! Lookups in the table of least crews (02, C-11), given to two engines. There are few enough to leave none out, so
//! they need no seeds.

use crate::cases::same;
use crate::engine::Engine;
use second_engine::least_crews::{LAST_B, LAST_CLASS, LAST_F};

/// Class, b and f.
pub type Lookup = (u8, u8, u8);

/// How far those near the table go beyond its ranges.
const BEYOND: u8 = 2;

/// Every lookup in the table's ranges and a little beyond them: class 0 to 5, b 0 to 12, f 0 to 17.
pub fn near_the_table() -> impl Iterator<Item = Lookup> {
    up_to(LAST_CLASS + BEYOND, LAST_B + BEYOND, LAST_F + BEYOND)
}

/// Every lookup that there is: any three bytes.
pub fn every() -> impl Iterator<Item = Lookup> {
    up_to(u8::MAX, u8::MAX, u8::MAX)
}

fn up_to(class: u8, b: u8, f: u8) -> impl Iterator<Item = Lookup> {
    (0..=class).flat_map(move |class| (0..=b).flat_map(move |b| (0..=f).map(move |f| (class, b, f))))
}

/// Gives these lookups to both engines, prints how many there were, and tells the first difference.
pub fn compare_all(lookups: impl Iterator<Item = Lookup>, one: &dyn Engine, other: &dyn Engine) -> Result<(), String> {
    let mut count = 0;
    for lookup in lookups {
        compare(lookup, one, other)?;
        count += 1;
    }
    println!("lookups: all {count} the same");
    Ok(())
}

/// Gives one lookup to both engines and tells the difference.
pub fn compare((class, b, f): Lookup, one: &dyn Engine, other: &dyn Engine) -> Result<(), String> {
    same(&("class, b, f", class, b, f), one.least(class, b, f), other.least(class, b, f))
}
