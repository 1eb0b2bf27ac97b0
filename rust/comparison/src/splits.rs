//! Splits of the rail's current (02, C-19): the properties that 02 states of them, on any engine. A second engine, if
//! there is one, has to give the same answers to all calls and leave the same share buffers, marks included.

use crate::cases::expect;
use crate::engine::Engine;
use crate::pair::Pair;
use generators::splits::{self, Split};
use generators::Random;
use second_engine::current::{MOST_BUDGET, MOST_DEMAND, MOST_SHUTTLES};
use second_engine::Refusal;

/// The answer to a split, and the share buffer after it.
type Outcome = (Result<(), Refusal>, Vec<u32>);

/// A random split.
pub fn drive(random: &mut Random, pair: Pair) -> Result<(), String> {
    check(pair, &splits::any(random))
}

/// How many demands the small splits have at most. There are 2,676,513 of them, which take about a second.
const SMALL_DEMANDS: u32 = 6;

/// Every small split. Prints how many there were, and tells the first that fails.
pub fn check_small(pair: Pair) -> Result<(), String> {
    let mut count = 0;
    for split in splits::small(SMALL_DEMANDS) {
        check(pair, &split)?;
        count += 1;
    }
    println!("small splits: all {count} in order");
    Ok(())
}

/// What is checked of a split, by name: which calls are refused, that these write nothing, what the others write, and
/// how far shares move with the budget.
pub const CHECKS: [&str; 7] = ["refused", "untouched", "enough", "sum", "demands", "ties", "steps"];

/// Plays the split and tells the first check that fails.
pub fn check(pair: Pair, split: &Split) -> Result<(), String> {
    for (name, outcome) in CHECKS.into_iter().zip(checks(pair, split)?) {
        outcome.map_err(|failure| format!("{name}: {failure}\ncase: {split:?}"))?;
    }
    Ok(())
}

/// Plays the split, and once more with 1 mA more of budget, and gives the outcome of each check. An error of its own is
/// a difference between two engines.
pub fn checks(pair: Pair, split: &Split) -> Result<[Result<(), String>; CHECKS.len()], String> {
    let outcome = play(pair, split)?;
    let next = play(pair, &Split { budget: split.budget.saturating_add(1), ..split.clone() })?;
    Ok([
        check_refused(split, &outcome),
        check_untouched(split, &outcome),
        check_enough(split, &outcome),
        check_sum(split, &outcome),
        check_demands(split, &outcome),
        check_ties(split, &outcome),
        check_steps(&outcome, &next),
    ])
}

fn play(pair: Pair, split: &Split) -> Result<Outcome, String> {
    let call = |engine: &dyn Engine| {
        let mut shares = split.shares.clone();
        let answer = engine.split(&split.demands, split.budget, &mut shares);
        (answer, shares)
    };
    let one = call(pair.engine);
    if let Some(other) = pair.other.map(call) {
        expect(one == other, || format!("the answers differ\ncase: {split:?}\none: {one:?}\nother: {other:?}"))?;
    }
    Ok(one)
}

/// The shares of an accepted call.
fn shares_of((answer, shares): &Outcome) -> Option<&[u32]> {
    answer.is_ok().then_some(shares)
}

/// 02: "It refuses with 18 a count outside 1 to 64 or a share buffer of another length, then with 19 a number out of
/// range"
fn check_refused(split: &Split, (answer, _): &Outcome) -> Result<(), String> {
    let count = split.demands.len();
    let is_in_range = split.budget <= MOST_BUDGET && split.demands.iter().all(|&demand| demand <= MOST_DEMAND);
    let expected = if count == 0 || count > MOST_SHUTTLES || split.shares.len() != count {
        Err(Refusal::Count)
    } else if !is_in_range {
        Err(Refusal::Amount)
    } else {
        Ok(())
    };
    expect(*answer == expected, || format!("{answer:?}, not {expected:?}"))
}

/// 02: "writing nothing"
fn check_untouched(split: &Split, (answer, shares): &Outcome) -> Result<(), String> {
    expect(answer.is_ok() || *shares == split.shares, || format!("{answer:?} leaves {shares:?}"))
}

/// 02: "if the demands' sum T is at most the budget B, each gets its demand"
fn check_enough(split: &Split, outcome: &Outcome) -> Result<(), String> {
    match shares_of(outcome) {
        Some(shares) if split.total() <= u64::from(split.budget) => {
            expect(shares == split.demands, || format!("{shares:?} where the budget is enough"))
        }
        _ => Ok(()),
    }
}

/// 02: "The shares then sum to exactly B"
fn check_sum(split: &Split, outcome: &Outcome) -> Result<(), String> {
    match shares_of(outcome) {
        Some(shares) if split.total() > u64::from(split.budget) => {
            let sum: u64 = shares.iter().copied().map(u64::from).sum();
            expect(sum == u64::from(split.budget), || format!("{shares:?}, together {sum}"))
        }
        _ => Ok(()),
    }
}

/// 02: "and none passes its demand"
fn check_demands(split: &Split, outcome: &Outcome) -> Result<(), String> {
    let Some(shares) = shares_of(outcome) else { return Ok(()) };
    let is_passing = shares.iter().zip(&split.demands).any(|(share, demand)| share > demand);
    expect(!is_passing, || format!("{shares:?} passes a demand"))
}

/// 02: "one each to the largest remainders, lower shuttle number on a tie". So of two equal demands, which have equal
/// remainders, the later gets as much as the earlier, or one mA less.
fn check_ties(split: &Split, outcome: &Outcome) -> Result<(), String> {
    let Some(shares) = shares_of(outcome) else { return Ok(()) };
    let held: Vec<(u32, u32)> = split.demands.iter().copied().zip(shares.iter().copied()).collect();
    for (number, &(demand, share)) in held.iter().enumerate() {
        for &(other_demand, other_share) in &held[number + 1..] {
            let is_fair = demand != other_demand || matches!(share.checked_sub(other_share), Some(0 | 1));
            expect(is_fair, || format!("{shares:?}: {other_share} after {share} of shuttle {number}"))?;
        }
    }
    Ok(())
}

/// 02: "One mA more of budget lowers or raises no share by more than 1." Also where it is enough then, or was before.
fn check_steps(outcome: &Outcome, next: &Outcome) -> Result<(), String> {
    let (Some(shares), Some(next)) = (shares_of(outcome), shares_of(next)) else { return Ok(()) };
    let is_leaping = shares.iter().zip(next).any(|(share, next)| share.abs_diff(*next) > 1);
    expect(!is_leaping, || format!("{shares:?}, and with 1 mA more {next:?}"))
}
