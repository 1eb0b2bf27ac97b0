//! Why the classroom errors are errors: on each stored script the engine prints the stored output, and the wrong engine
//! ends as scripts/README.md says. Where an error cannot exist in a class, that page says why.

use second_engine::drill::{run, run_mutated};
use second_engine::Mutation::{self, *};

/// A stored script and its output.
macro_rules! stored {
    ($name:literal) => {
        (
            include_str!(concat!("../../../scripts/", $name, ".txt")),
            include_str!(concat!("../../../scripts/", $name, ".out")),
        )
    };
}

/// The script with its output, the error, and the line that the wrong engine prints for the last go.
const ERRORS: [((&str, &str), Mutation, &str); 13] = [
    (stored!("majority_of_arrivals_class_1"), MajorityOfArrivalsDecides, "2 3 7 7 7 9 9 -"),
    (stored!("majority_of_arrivals_class_2"), MajorityOfArrivalsDecides, "2 3 7 7 7 9 -"),
    (stored!("majority_of_arrivals_class_3"), MajorityOfArrivalsValidates, "2 3 9 9 7 -"),
    (stored!("newest_stamp_wins_class_1"), NewestStampWins, "2 3 5 9 9 9 9 -"),
    (stored!("newest_stamp_wins_class_2"), NewestStampWins, "4 3 9 7 9 9 -"),
    (stored!("newest_stamp_wins_class_3"), NewestStampWins, "3 3 5 6 6 -"),
    (stored!("back_to_own_selection_class_2"), BackToOwnSelection, "2 3 6 6 6 6 -"),
    (stored!("back_to_own_selection_class_3"), BackToOwnSelection, "3 3 0 0 0 -"),
    (stored!("back_to_own_history_class_2"), BackToOwnHistory, "3 3 5 6 6"),
    (stored!("back_to_own_history_class_3"), BackToOwnHistory, "3 3 0 0 0 -"),
    (stored!("older_stamps_decide_class_2"), OldStampsDecide, "2 3 6 5 5 5 -"),
    (stored!("older_stamps_decide_class_3"), OldStampsDecide, "2 3 6 5 5 -"),
    (stored!("say_of_a_non_validator"), OthersCount, "2 3 6 5 5 5 -"),
];

fn text(output: Vec<u8>) -> String {
    String::from_utf8(output).expect("the output is text")
}

#[test]
fn each_error_ends_as_the_table_says() {
    for ((script, output), mutation, last_go) in ERRORS {
        assert_eq!(text(run(script.as_bytes())), output, "the engine, where {mutation:?} ends with {last_go}");
        let wrong = text(run_mutated(script.as_bytes(), mutation));
        let last_lines: Vec<&str> = wrong.lines().rev().take(2).collect();
        assert_eq!(last_lines, ["end", last_go], "{mutation:?}");
        assert_ne!(output.lines().nth_back(1), Some(last_go), "{mutation:?} shows nothing");
    }
}
