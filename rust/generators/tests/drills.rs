//! Valid scripts are what they say, and nodes speak in them in round 2 whose turn it is not. So is the longest script:
//! as long as may be, with every round there is, and in each round every liar speaks, to no node twice.

use generators::{drills, turns, Random};
use second_engine::message::LAST_PHASE;
use second_engine::{drill, Crew};
use std::collections::BTreeSet;

/// The rounds of a script: what stands before each go, lines 1 and 2 left out, with its phase and number.
fn rounds(crew: Crew, script: &str) -> impl Iterator<Item = (u8, u8, &str)> {
    let numbers: &[u8] = if crew.class == 1 { &[1, 3] } else { &[1, 2, 3] };
    let places = (1..=LAST_PHASE).flat_map(move |phase| numbers.iter().map(move |&number| (phase, number)));
    let lines = script.splitn(3, '\n').nth(2).expect("a script has two lines");
    places.zip(lines.split("go\n")).map(|((phase, number), lines)| (phase, number, lines))
}

#[test]
fn valid_scripts_have_no_bad_line_and_say_things_out_of_turn() {
    let (mut in_turn, mut out_of_turn) = (0, 0);
    for seed in 1..=1_000 {
        let script = String::from_utf8(drills::valid(&mut Random::new(seed))).expect("a script is text");
        let output = drill::run(script.as_bytes());
        let last: &[u8] = if script.len() > drill::LONGEST_INPUT { b"long\n" } else { b"end\n" };
        assert!(output.ends_with(last), "seed {seed}");
        let crew = drills::crew_of(script.as_bytes());
        for (phase, _, lines) in rounds(crew, &script).filter(|&(_, number, _)| number == 2) {
            for (from, _) in lines.lines().filter(|line| line.starts_with("say ")).map(pair_of_say) {
                let is_in_turn = turns::is_validator(crew, phase, from);
                in_turn += usize::from(is_in_turn);
                out_of_turn += usize::from(!is_in_turn);
            }
        }
    }
    println!("says in round 2: {in_turn} in turn, {out_of_turn} out of turn");
    assert!(in_turn > 1_000 && out_of_turn > 1_000);
}

const LIARS: std::ops::Range<usize> = 22..32;

fn longest() -> String {
    String::from_utf8(drills::longest()).expect("a script is text")
}

#[test]
fn the_longest_script_runs_to_its_end() {
    let script = longest();
    assert_eq!(script.len(), drill::LONGEST_INPUT);
    let output = String::from_utf8(drill::run(script.as_bytes())).expect("the output is text");
    let lines: Vec<&str> = output.lines().collect();
    assert_eq!(lines.len(), 3 * usize::from(LAST_PHASE) + 1);
    assert!(lines[188].starts_with("63 3 "), "the last round: {}", lines[188]);
    assert_eq!(lines[189], "end");
}

#[test]
fn every_liar_of_the_longest_script_speaks_in_every_round() {
    let script = longest();
    let mut rounds: Vec<&str> = script.split("go\n").collect();
    // What stands after the last round, and lines 1 and 2.
    rounds.pop();
    rounds[0] = rounds[0].splitn(3, '\n').nth(2).expect("a script has three lines");
    assert_eq!(rounds.len(), 3 * usize::from(LAST_PHASE));
    for round in rounds {
        let pairs: Vec<(usize, usize)> = round.lines().map(pair_of_say).collect();
        let distinct: BTreeSet<(usize, usize)> = pairs.iter().copied().collect();
        assert_eq!(pairs.len(), distinct.len(), "{round}");
        let speakers: BTreeSet<usize> = pairs.iter().map(|pair| pair.0).collect();
        assert_eq!(speakers, LIARS.collect(), "{round}");
        assert!(pairs.iter().all(|pair| pair.1 < LIARS.start), "{round}");
    }
}

/// Who speaks to whom.
fn pair_of_say(line: &str) -> (usize, usize) {
    let fields: Vec<&str> = line.split(' ').collect();
    assert_eq!(fields[0], "say");
    (fields[1].parse().expect("a number"), fields[2].parse().expect("a number"))
}
