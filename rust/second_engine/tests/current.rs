//! Splitting the rail's current (02, C-19): splits worked out by hand, the calls that are refused and in which order,
//! and for each wrong engine a split that it answers otherwise.

use second_engine::current::split_mutated;
use second_engine::Mutation::{self, *};
use second_engine::Refusal;

/// What stands in a share buffer before the call: a number that no share is.
const MARK: u32 = u32::MAX;

/// What an engine has to answer, and what stands in the share buffer after the call.
type Told = (Result<(), Refusal>, &'static [u32]);

/// The answer, and the share buffer after the call, where it was lent with this length.
fn answer(demands: &[u32], budget: u32, length: usize, mutation: Mutation) -> (Result<(), Refusal>, Vec<u32>) {
    let mut shares = vec![MARK; length];
    let answer = split_mutated(demands, budget, &mut shares, mutation);
    (answer, shares)
}

/// The answer of the engine.
fn split(demands: &[u32], budget: u32, length: usize) -> (Result<(), Refusal>, Vec<u32>) {
    answer(demands, budget, length, Unmutated)
}

#[test]
fn splits_worked_out_by_hand() {
    let splits: [(&[u32], u32, &[u32]); 23] = [
        // Enough: T is at most B, also where both are 0.
        (&[0], 0, &[0]),
        (&[0, 0], 5, &[0, 0]),
        (&[3, 4], 8, &[3, 4]),
        (&[3, 4], 7, &[3, 4]),
        // One mA too few: 18/7 is 2 and 4 over, 24/7 is 3 and 3 over.
        (&[3, 4], 6, &[3, 3]),
        // Nothing to give.
        (&[7, 9], 0, &[0, 0]),
        // T = 7. 3/7, 9/7 and 9/7 are 0, 1 and 1, with 3, 2 and 2 over, and 1 mA is left over.
        (&[1, 3, 3], 3, &[1, 1, 1]),
        // With 1 mA more 4, 5 and 5 are over, and 2 mA are left over: the first share falls.
        (&[1, 3, 3], 4, &[0, 2, 2]),
        (&[3, 1, 3], 4, &[2, 0, 2]),
        // A tie of all: 50/15 is 3 and 5 over.
        (&[5, 5, 5], 10, &[4, 3, 3]),
        (&[5, 5, 5], 11, &[4, 4, 3]),
        // A tie of different demands: 3/6 and 9/6 have 3 over, 6/6 nothing.
        (&[1, 2, 3], 3, &[1, 1, 1]),
        (&[3, 2, 1], 3, &[2, 1, 0]),
        // Nothing is left over: 24/12 and 12/12.
        (&[6, 3, 3], 4, &[2, 1, 1]),
        // A demand of 0 has nothing over and gets nothing.
        (&[0, 2, 1], 1, &[0, 1, 0]),
        (&[0, 0, 9], 8, &[0, 0, 8]),
        // Remainders 8, 4, 4, 4 and 0 of 10, and 2 mA are left over.
        (&[2, 1, 1, 1, 5], 4, &[1, 1, 0, 0, 2]),
        // Of 100,001 the larger demand has 1 over and the smaller 100,000. The product has 34 bits.
        (&[100_000, 1], 100_000, &[99_999, 1]),
        (&[100_000, 100_000], 199_999, &[100_000, 99_999]),
        (&[0, 100_000, 0], 99_999, &[0, 99_999, 0]),
        (&[100_000], 1_000_000, &[100_000]),
        (&[100_000], 1, &[1]),
        (&[100_000], 0, &[0]),
    ];
    for (demands, budget, shares) in splits {
        let expected = (Ok(()), shares.to_vec());
        assert_eq!(split(demands, budget, demands.len()), expected, "{demands:?}, budget {budget}");
    }
}

/// As many equal demands as there may be: the first shuttles get one more than the others.
#[test]
fn splits_of_sixty_four_worked_out_by_hand() {
    let splits = [
        (1, 65, 0, 1),
        (1, 64, 0, 1),
        (1, 63, 63, 0),
        (1, 1, 1, 0),
        (1, 0, 0, 0),
        // 1,000,000/64 is 15,625.
        (100_000, 1_000_000, 0, 15_625),
        (100_000, 999_999, 63, 15_624),
        (100_000, 999_937, 1, 15_624),
        (100_000, 999_936, 0, 15_624),
    ];
    for (demand, budget, more, share) in splits {
        let shares = (0..64).map(|number| share + u32::from(number < more)).collect();
        assert_eq!(split(&[demand; 64], budget, 64), (Ok(()), shares), "demand {demand}, budget {budget}");
    }
}

/// 18 where the count or the buffer's length is wrong, whatever the amounts are, and else 19. Nothing is written.
#[test]
fn wrong_counts_and_amounts_are_refused() {
    let demands: [(&[u32], Refusal); 5] = [
        (&[1; 200], Refusal::Count),
        (&[u32::MAX; 65], Refusal::Count),
        (&[], Refusal::Count),
        (&[100_001], Refusal::Amount),
        (&[u32::MAX; 64], Refusal::Amount),
    ];
    for (demands, refusal) in demands {
        let right = demands.len();
        for budget in [0, 1, 1_000_000, 1_000_001, u32::MAX] {
            for length in [right, right + 1, right.saturating_sub(1), 2 * right, 0, 1, 63, 64, 65] {
                let refusal = if length == right { refusal } else { Refusal::Count };
                let case = format!("{right} demands, budget {budget}, {length} shares");
                assert_eq!(split(demands, budget, length), (Err(refusal), vec![MARK; length]), "{case}");
            }
        }
    }
}

/// One number out of range, at each place, and the budget, with all else in order.
#[test]
fn every_number_is_tested() {
    for count in [1, 2, 63, 64] {
        let demands = vec![100_000; count];
        assert_eq!(split(&demands, 1_000_000, count).0, Ok(()), "{count} demands");
        let refused = (Err(Refusal::Amount), vec![MARK; count]);
        for budget in [1_000_001, u32::MAX] {
            assert_eq!(split(&demands, budget, count), refused, "{count} demands, budget {budget}");
        }
        for number in 0..count {
            for demand in [100_001, 1 << 31, u32::MAX] {
                let mut demands = demands.clone();
                demands[number] = demand;
                assert_eq!(split(&demands, 1, count), refused, "{count} demands, {demand} of shuttle {number}");
            }
        }
    }
}

#[test]
fn each_wrong_engine_answers_otherwise() {
    let (count, amount) = (Err(Refusal::Count), Err(Refusal::Amount));
    let cases: [(Mutation, &[u32], u32, Told, Told); 13] = [
        // 3/7, 9/7 and 9/7
        (RoundedUp, &[1, 3, 3], 3, (Ok(()), &[1, 1, 1]), (Ok(()), &[1, 2, 2])),
        // 4/7, 12/7 and 12/7 give one mA too many,
        (RoundedToNearest, &[1, 3, 3], 4, (Ok(()), &[0, 2, 2]), (Ok(()), &[1, 2, 2])),
        // and 8/10, 4/10, 4/10, 4/10 and 20/10 leave one over, which goes to the first once more.
        (RoundedToNearest, &[2, 1, 1, 1, 5], 4, (Ok(()), &[1, 1, 0, 0, 2]), (Ok(()), &[2, 0, 0, 0, 2])),
        (TiesToTheHigherNumber, &[5, 5, 5], 10, (Ok(()), &[4, 3, 3]), (Ok(()), &[3, 3, 4])),
        (SmallestRemaindersFirst, &[1, 3, 3], 3, (Ok(()), &[1, 1, 1]), (Ok(()), &[0, 2, 1])),
        (LeftOverToOne, &[1, 3, 3], 4, (Ok(()), &[0, 2, 2]), (Ok(()), &[0, 3, 1])),
        (OneLeftOverTooFew, &[1, 3, 3], 4, (Ok(()), &[0, 2, 2]), (Ok(()), &[0, 2, 1])),
        (LeftOverKept, &[1, 3, 3], 4, (Ok(()), &[0, 2, 2]), (Ok(()), &[0, 1, 1])),
        (AmountBeforeCount, &[100_001], 1, (count, &[MARK, MARK]), (amount, &[MARK, MARK])),
        (AmountBeforeCount, &[1], 1_000_001, (count, &[]), (amount, &[])),
        (LongerBufferTaken, &[2], 1, (count, &[MARK, MARK]), (Ok(()), &[1, MARK])),
        (LargestDemandRefused, &[100_000], 5, (Ok(()), &[5]), (amount, &[MARK])),
        (WrittenBeforeRefused, &[1, 100_001], 1, (amount, &[MARK, MARK]), (amount, &[0, 0])),
    ];
    for (mutation, demands, budget, (right, shares), (wrong, wrong_shares)) in cases {
        let told = answer(demands, budget, shares.len(), Unmutated);
        assert_eq!(told, (right, shares.to_vec()), "the engine, where {mutation:?} answers {wrong:?} {wrong_shares:?}");
        let told = answer(demands, budget, shares.len(), mutation);
        assert_eq!(told, (wrong, wrong_shares.to_vec()), "{mutation:?}");
    }
    // None is left out.
    assert!(Mutation::MUTANTS_OF_SPLITS.iter().all(|mutant| cases.iter().any(|(mutation, ..)| mutation == mutant)));
}
