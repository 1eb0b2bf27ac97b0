//! Splits of the rail's current: demands, budget and share buffer, in the ranges and beyond them, with ties, and with
//! budgets about the demands' sum.

use crate::random::Random;
use second_engine::current::{MOST_BUDGET, MOST_DEMAND, MOST_SHUTTLES};

/// What a split is handed.
#[derive(Clone, Debug, PartialEq, Eq)]
pub struct Split {
    pub demands: Vec<u32>,
    pub budget: u32,
    /// The share buffer as it is lent, a mark at each place.
    pub shares: Vec<u32>,
}

impl Split {
    /// 02's T. Demands that are out of range are taken as they are.
    pub fn total(&self) -> u64 {
        total(&self.demands)
    }
}

fn total(demands: &[u32]) -> u64 {
    demands.iter().copied().map(u64::from).sum()
}

/// Any split: mostly in the ranges, else with a wrong count, a share buffer of another length or a number out of range.
pub fn any(random: &mut Random) -> Split {
    let (mut demands, mut budget) = if random.chance(1, 32) { fullest(random) } else { within(random) };
    let (count, any_length) = (demands.len(), random.below(2 * MOST_SHUTTLES));
    if random.chance(1, 16) && count > 0 {
        (0..random.between(1, 2)).for_each(|_| demands[random.below(count)] = above(random, MOST_DEMAND));
    }
    if random.chance(1, 16) {
        budget = above(random, MOST_BUDGET);
    }
    let length = match random.below(16) {
        0 => random.pick(&[count.saturating_sub(1), count + 1, 0, MOST_SHUTTLES, any_length]),
        _ => count,
    };
    Split { demands, budget, shares: (0..length).map(|_| mark(random)).collect() }
}

/// A number out of the range that ends here: the next, the last that there is, or any.
fn above(random: &mut Random, most: u32) -> u32 {
    let any_number = random.between(most as usize + 1, u32::MAX as usize) as u32;
    random.pick(&[most + 1, most + 1, u32::MAX, u32::MAX, any_number])
}

/// A number that no share is.
fn mark(random: &mut Random) -> u32 {
    (1 << 31) | random.number() as u32
}

/// All demands as many and as high as they may be, with one of the highest budgets.
fn fullest(random: &mut Random) -> (Vec<u32>, u32) {
    (vec![MOST_DEMAND; MOST_SHUTTLES], random.pick(&[MOST_BUDGET, MOST_BUDGET - 1]))
}

/// Demands in their range and a budget for them, sometimes too many or none.
fn within(random: &mut Random) -> (Vec<u32>, u32) {
    let (few, many) = (random.between(1, 5), random.between(1, MOST_SHUTTLES));
    let count = match random.below(16) {
        0 => random.pick(&[0, MOST_SHUTTLES + 1, MOST_SHUTTLES + 2, 200]),
        1..=4 => few,
        5 | 6 => random.pick(&[1, 2, MOST_SHUTTLES - 1]),
        7..=9 => MOST_SHUTTLES,
        _ => many,
    };
    let demands = demands(random, count);
    let budget = budget(random, &demands);
    (demands, budget)
}

/// So many demands in their range.
fn demands(random: &mut Random, count: usize) -> Vec<u32> {
    match random.below(8) {
        // All equal,
        0 => vec![demand(random); count],
        // or of few values, so that there are many ties,
        1 | 2 => {
            let pool: Vec<u32> = (0..random.between(2, 4)).map(|_| demand(random)).collect();
            (0..count).map(|_| random.pick(&pool)).collect()
        }
        // or one takes all,
        3 => {
            let mut demands = vec![0; count];
            if count > 0 {
                demands[random.below(count)] = random.pick(&[1, MOST_DEMAND - 1, MOST_DEMAND]);
            }
            demands
        }
        // or small throughout,
        4 => (0..count).map(|_| random.below(6) as u32).collect(),
        // or of any size,
        5 => (0..count).map(|_| below_or_at(random, MOST_DEMAND)).collect(),
        // or small enough for the budget,
        6 => (0..count).map(|_| below_or_at(random, MOST_BUDGET / MOST_SHUTTLES as u32)).collect(),
        // or of all sorts.
        _ => (0..count).map(|_| demand(random)).collect(),
    }
}

/// A demand in the range: small, at an edge or any.
fn demand(random: &mut Random) -> u32 {
    let (small, any_demand) = (random.below(6) as u32, below_or_at(random, MOST_DEMAND));
    random.pick(&[small, small, 0, 1, MOST_DEMAND - 1, MOST_DEMAND, any_demand, any_demand])
}

/// A number from 0 to the most.
fn below_or_at(random: &mut Random, most: u32) -> u32 {
    random.between(0, most as usize) as u32
}

/// A budget in its range. Where the demands' sum passes the range, it is the highest budget in its place.
fn budget(random: &mut Random, demands: &[u32]) -> u32 {
    let total = total(demands) as u32;
    let reach = total.min(MOST_BUDGET);
    match random.below(8) {
        // About the sum,
        0 | 1 => random.pick(&[reach.saturating_sub(1), reach, (reach + 1).min(MOST_BUDGET)]),
        // or a simple part of it,
        2 | 3 => part(random, total),
        // or anything below it,
        4 => below_or_at(random, reach.saturating_sub(1)),
        // or fewer mA than shuttles, or hardly more,
        5 => below_or_at(random, 2 * demands.len() as u32),
        // or at an edge,
        6 => random.pick(&[0, 1, MOST_BUDGET - 1, MOST_BUDGET]),
        // or any.
        _ => below_or_at(random, MOST_BUDGET),
    }
}

/// Some of up to 16 equal parts of a sum, as far as they are in the range. Remainders are such parts then, so that many
/// are equal, also those of different demands.
fn part(random: &mut Random, total: u32) -> u32 {
    let parts: Vec<u32> = (1..=16).filter(|&parts| total.is_multiple_of(parts)).collect();
    let parts = random.pick(&parts);
    let one = (total / parts).max(1);
    let most = (MOST_BUDGET / one).clamp(1, parts.max(2) - 1);
    (one * random.between(1, most as usize) as u32).min(MOST_BUDGET)
}

/// The highest demand of a small split.
const SMALL: u32 = 6;

/// Every split of at most so many small demands, with every budget up to one more than their sum, for comparisons that
/// leave none out. Those of fewer demands come first.
pub fn small(most: u32) -> impl Iterator<Item = Split> {
    let base = SMALL + 1;
    // The demands are the digits of a number.
    let lists = (1..=most).flat_map(move |count| {
        (0..base.pow(count)).map(move |number| (0..count).map(|place| number / base.pow(place) % base).collect())
    });
    lists.flat_map(|demands: Vec<u32>| {
        let shares = vec![u32::MAX; demands.len()];
        let last = total(&demands) as u32 + 1;
        (0..=last).map(move |budget| Split { demands: demands.clone(), budget, shares: shares.clone() })
    })
}
