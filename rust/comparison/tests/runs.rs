//! The properties of demand 3 on random runs of all classes.

use comparison::runs::{drive_class, Tally};
use comparison::seeds::seeds;
use comparison::Second;
use generators::Random;

fn run_class(class: u8) {
    let mut tally = Tally::default();
    for seed in seeds(&format!("runs of class {class}"), 400) {
        match drive_class(&mut Random::new(seed), class, &Second::default(), None) {
            Ok(run) => tally.add(run),
            Err(failure) => panic!("run of class {class}, seed {seed}: {failure}"),
        }
    }
    println!("class {class}: {tally:?}");
    // A replay of one run need not have everything.
    if tally.rounds > 1_000 {
        assert!(tally.decided > 0 && tally.undecided > 0 && tally.good_phases > 0 && tally.decided_in_good > 0);
        assert!(tally.common_starts > 0 && tally.spent_rounds > 0 && tally.refused > 0);
        // Validators take turns in classes 2 and 3. Slots that would count in their nodes' turn are there, and good
        // phases; and in class 2 phases that are not good for want of validators alone, of which some leave nodes
        // undecided. In class 3 a group is so large that every circle has enough of it.
        assert!([tally.out_of_turn, tally.good_in_turn].iter().all(|&count| (count > 0) == (class != 1)));
        assert!([tally.short_of_validators, tally.left_undecided].iter().all(|&count| (count > 0) == (class == 2)));
    }
}

#[test]
fn runs_of_class_1() {
    run_class(1);
}

#[test]
fn runs_of_class_2() {
    run_class(2);
}

#[test]
fn runs_of_class_3() {
    run_class(3);
}
