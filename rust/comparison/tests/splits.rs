//! Splits of the rail's current (02, C-19) on the second engine: random ones and all small ones have the properties,
//! the properties alone find the wrong engines, and splits of all sorts come up.

use comparison::mutants::IN_REFUSALS;
use comparison::pair::Pair;
use comparison::seeds::seeds;
use comparison::splits::{check, check_small, checks, CHECKS};
use comparison::Second;
use generators::splits::{self, Split};
use generators::Random;
use second_engine::{current, Mutation};
use std::collections::{BTreeMap, BTreeSet};

const SECOND: Second = Second { mutation: Mutation::Unmutated };
const ALONE: Pair = Pair { engine: &SECOND, other: None };

#[test]
fn random_splits_have_the_properties() {
    for seed in seeds("random_splits_have_the_properties", 100_000) {
        if let Err(failure) = check(ALONE, &splits::any(&mut Random::new(seed))) {
            panic!("seed {seed}: {failure}");
        }
    }
}

#[test]
fn all_small_splits_have_the_properties() {
    if let Err(failure) = check_small(ALONE) {
        panic!("{failure}");
    }
}

/// How many of the splits break each property with this mutant, and how many break any.
fn broken(mutation: Mutation, splits: impl Iterator<Item = Split>) -> ([usize; CHECKS.len()], usize) {
    let (mut by_check, mut any) = ([0; CHECKS.len()], 0);
    for split in splits {
        let outcomes = checks(Pair { engine: &Second { mutation }, other: None }, &split).unwrap();
        by_check.iter_mut().zip(&outcomes).for_each(|(count, outcome)| *count += usize::from(outcome.is_err()));
        any += usize::from(outcomes.iter().any(Result::is_err));
    }
    (by_check, any)
}

/// Without an engine to compare with, the properties find every mutant, and each of them finds one. Small splits find
/// all that are wrong elsewhere than in refusals.
#[test]
fn properties_of_splits_find_mutants() {
    const SPLITS: u64 = 2_000;
    let small = || splits::small(4);
    println!("of {SPLITS} splits and {} small ones", small().count());
    let mut is_finding = [false; CHECKS.len()];
    for mutation in Mutation::MUTANTS_OF_SPLITS {
        let (by_check, found) = broken(mutation, (1..=SPLITS).map(|seed| splits::any(&mut Random::new(seed))));
        let (by_check_small, found_small) = broken(mutation, small());
        let show = |counts: [usize; CHECKS.len()]| {
            let counts = CHECKS.into_iter().zip(counts).filter(|&(_, count)| count > 0);
            counts.map(|(name, count)| format!("{name} {count}")).collect::<Vec<_>>().join(", ")
        };
        println!("{mutation:?}: {found} ({}), {found_small} ({})", show(by_check), show(by_check_small));
        is_finding.iter_mut().zip(by_check).for_each(|(is_finding, count)| *is_finding |= count > 0);
        assert!(found > 0, "{mutation:?} breaks no property");
        assert_eq!(found_small > 0, !IN_REFUSALS.contains(&mutation), "{mutation:?} in small splits");
    }
    assert_eq!(is_finding, [true; CHECKS.len()]);
}

/// What is left over in a split whose budget is not enough, and each remainder with its demand, the largest first.
fn remainders(split: &Split) -> (usize, Vec<(u64, u32)>) {
    let (total, budget) = (split.total(), u64::from(split.budget));
    let products = || split.demands.iter().map(|&demand| (u64::from(demand) * budget, demand));
    let given: u64 = products().map(|(product, _)| product / total).sum();
    let mut remainders: Vec<_> = products().map(|(product, demand)| (product % total, demand)).collect();
    remainders.sort_by(|one, other| other.cmp(one));
    ((budget - given) as usize, remainders)
}

/// The demands that tie for the last mA that is left over: some of them get one and others none.
fn tied(split: &Split) -> Vec<u32> {
    let (left_over, remainders) = remainders(split);
    if left_over == 0 || remainders[left_over - 1].0 != remainders[left_over].0 {
        return Vec::new();
    }
    let last = remainders[left_over].0;
    remainders.into_iter().filter(|&(remainder, _)| remainder == last).map(|(_, demand)| demand).collect()
}

/// All sorts of accepted splits, and whether this one is of each.
fn sorts_of_accepted(split: &Split) -> Vec<(&'static str, bool)> {
    let (total, budget) = (split.total(), u64::from(split.budget));
    let has = |demand: u32| split.demands.contains(&demand);
    let is_short = total > budget;
    let tied = if is_short { tied(split) } else { Vec::new() };
    let is_different = tied.iter().any(|&demand| demand != tied[0]);
    vec![
        ("64 times 100,000, B 1,000,000", (total, budget) == (6_400_000, 1_000_000)),
        ("64 times 100,000, B 999,999", (total, budget) == (6_400_000, 999_999)),
        ("T 0", total == 0),
        ("B = T - 1", budget + 1 == total),
        ("B = T", budget == total),
        ("B = T + 1", budget == total + 1),
        ("B 0", budget == 0),
        ("B 1", budget == 1),
        ("B 1,000,000", budget == 1_000_000),
        ("B far below T", 2 * budget < total && budget > 100),
        ("B far above T", budget > 2 * total && total > 100),
        ("a demand of 0", has(0)),
        ("a demand of 1", has(1)),
        ("a demand of 99,999", has(99_999)),
        ("a demand of 100,000", has(100_000)),
        ("one takes all", split.demands.len() > 1 && split.demands.iter().filter(|&&demand| demand > 0).count() == 1),
        ("all equal", split.demands.len() > 1 && split.demands.iter().all(|&demand| demand == split.demands[0])),
        ("nothing left over", is_short && remainders(split).0 == 0),
        ("a tie for the last mA", !tied.is_empty()),
        ("a tie of different demands", is_different),
        ("a tie of different large demands", is_different && tied.iter().all(|&demand| demand > 999)),
    ]
}

/// All sorts of refused splits, and whether this one is of each.
fn sorts_of_refused(split: &Split) -> Vec<(&'static str, bool)> {
    let (count, length) = (split.demands.len(), split.shares.len());
    let is_count = (1..=64).contains(&count);
    let is_whole = is_count && length == count;
    let is_budget = split.budget <= 1_000_000;
    let are_demands = split.demands.iter().all(|&demand| demand <= 100_000);
    let has = |demand: u32| split.demands.contains(&demand);
    vec![
        ("0 demands", (count, length) == (0, 0)),
        ("65 demands", (count, length) == (65, 65)),
        ("66 demands", (count, length) == (66, 66)),
        ("200 demands", (count, length) == (200, 200)),
        ("a share too few", is_count && length + 1 == count),
        ("a share too many", is_count && length == count + 1),
        ("no share", is_count && length == 0),
        ("18 alone", !is_whole && is_budget && are_demands),
        ("18 and a budget", !is_whole && !is_budget),
        ("18 and a demand", !is_whole && !are_demands),
        ("a budget of 1,000,001 alone", is_whole && are_demands && split.budget == 1_000_001),
        ("a budget of 2^32 - 1 alone", is_whole && are_demands && split.budget == u32::MAX),
        ("a demand of 100,001", is_whole && is_budget && has(100_001)),
        ("a demand of 2^32 - 1", is_whole && is_budget && has(u32::MAX)),
    ]
}

/// Splits of all sorts come up, with every count, and with every number of mA left over.
#[test]
fn splits_of_all_sorts_come_up() {
    let (mut sorts, mut counts, mut left_overs) = (BTreeMap::new(), BTreeSet::new(), BTreeSet::new());
    for seed in seeds("splits_of_all_sorts_come_up", 40_000) {
        let split = splits::any(&mut Random::new(seed));
        let found = match current::split(&split.demands, split.budget, &mut split.shares.clone()) {
            Ok(()) => {
                counts.insert(split.demands.len());
                if split.total() > u64::from(split.budget) {
                    left_overs.insert(remainders(&split).0);
                }
                sorts_of_accepted(&split)
            }
            Err(_) => sorts_of_refused(&split),
        };
        found.into_iter().for_each(|(sort, is_so)| *sorts.entry(sort).or_insert(0) += usize::from(is_so));
    }
    println!("{sorts:#?}");
    // 21 of accepted splits, 14 of refused ones.
    assert!(sorts.len() == 21 + 14 && sorts.values().all(|&count| count >= 100));
    assert!(counts.into_iter().eq(1..=64));
    assert!(left_overs.into_iter().eq(0..=63));
}
