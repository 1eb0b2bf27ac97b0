//! Splitting the rail's current among shuttles (02, C-19). All shuttles are sorted by their remainders, and the first
//! get what is left over; no ranks are counted.
//! Every rule takes the mutation that makes it wrong; the public operation passes none.

use crate::mutation::Mutation;
use crate::refusal::Refusal;
use std::cmp::Reverse;

/// 02: "Given 1 to 64 shuttle demands of 0 to 100,000 mA and a budget of 0 to 1,000,000 mA"
pub const MOST_SHUTTLES: usize = 64;
pub const MOST_DEMAND: u32 = 100_000;
pub const MOST_BUDGET: u32 = 1_000_000;

/// Splits the budget and writes each shuttle's share at the place of its demand. A refused call writes nothing.
pub fn split(demands: &[u32], budget: u32, shares: &mut [u32]) -> Result<(), Refusal> {
    split_mutated(demands, budget, shares, Mutation::Unmutated)
}

/// As `split`, with a wrong rule.
pub fn split_mutated(demands: &[u32], budget: u32, shares: &mut [u32], mutation: Mutation) -> Result<(), Refusal> {
    if let Err(refusal) = check(demands, budget, shares, mutation) {
        if (mutation, refusal) == (Mutation::WrittenBeforeRefused, Refusal::Amount) {
            shares.fill(0);
        }
        return Err(refusal);
    }
    // A mutant's buffer may be longer.
    let shares = &mut shares[..demands.len()];
    let total: u32 = demands.iter().sum();
    // 02: "if the demands' sum T is at most the budget B, each gets its demand"
    if total <= budget {
        shares.copy_from_slice(demands);
    } else {
        divide(demands, total, budget, shares, mutation);
    }
    Ok(())
}

/// 02: "It refuses with 18 a count outside 1 to 64 or a share buffer of another length, then with 19 a number out of
/// range"
fn check(demands: &[u32], budget: u32, shares: &[u32], mutation: Mutation) -> Result<(), Refusal> {
    let most_demand = match mutation {
        Mutation::LargestDemandRefused => MOST_DEMAND - 1,
        _ => MOST_DEMAND,
    };
    let is_fitting = match mutation {
        Mutation::LongerBufferTaken => shares.len() >= demands.len(),
        _ => shares.len() == demands.len(),
    };
    let is_in_range = || budget <= MOST_BUDGET && demands.iter().all(|&demand| demand <= most_demand);
    if mutation == Mutation::AmountBeforeCount && !is_in_range() {
        return Err(Refusal::Amount);
    }
    if !(1..=MOST_SHUTTLES).contains(&demands.len()) || !is_fitting {
        return Err(Refusal::Count);
    }
    if !is_in_range() {
        return Err(Refusal::Amount);
    }
    Ok(())
}

/// 02: "Otherwise each gets demand × B / T rounded down, and the mA left over go one each". Products are taken wide:
/// they exceed 32 bits.
fn divide(demands: &[u32], total: u32, budget: u32, shares: &mut [u32], mutation: Mutation) {
    let (total, budget) = (u64::from(total), u64::from(budget));
    let mut order = [(Reverse(0), 0); MOST_SHUTTLES];
    let order = &mut order[..demands.len()];
    let mut given = 0;
    for (number, &demand) in demands.iter().enumerate() {
        let product = u64::from(demand) * budget;
        let share = match mutation {
            Mutation::RoundedUp => product.div_ceil(total),
            Mutation::RoundedToNearest => (2 * product + total) / (2 * total),
            _ => product / total,
        };
        shares[number] = share as u32;
        order[number] = (Reverse(product % total), number);
        given += share;
    }
    sort(order, mutation);
    // Rounded down, there are fewer mA left over than shuttles. Mutants may have given more than the budget.
    let left_over = budget.saturating_sub(given) as usize;
    let (count, each) = match mutation {
        Mutation::LeftOverKept => (0, 1),
        Mutation::OneLeftOverTooFew => (left_over.saturating_sub(1), 1),
        Mutation::LeftOverToOne => (1, left_over as u32),
        _ => (left_over, 1),
    };
    for &(_, number) in &order[..count] {
        shares[number] += each;
    }
}

/// 02: "to the largest remainders, lower shuttle number on a tie". Each shuttle is its remainder, which falls in this
/// order, and its number, which rises.
fn sort(order: &mut [(Reverse<u64>, usize)], mutation: Mutation) {
    match mutation {
        Mutation::TiesToTheHigherNumber => order.sort_unstable_by_key(|&(remainder, n)| (remainder, Reverse(n))),
        Mutation::SmallestRemaindersFirst => order.sort_unstable_by_key(|&(Reverse(remainder), n)| (remainder, n)),
        _ => order.sort_unstable(),
    }
}
