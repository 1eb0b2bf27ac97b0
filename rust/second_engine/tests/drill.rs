//! The drill's example and its corners.

use second_engine::drill;

fn run(input: &str) -> String {
    String::from_utf8(drill::run(input.as_bytes())).expect("the output is text")
}

const START: &str = "3 4 1 0 3 4\n5 5 5 0\n";

/// The lines added to the usual start, and what follows of the output.
fn after_start(lines: &str) -> String {
    run(&format!("{START}{lines}"))
}

#[test]
fn example_of_the_paper() {
    assert_eq!(after_start("go\ngo\ngo\n"), "1 1 0 0 0 -\n1 2 0 0 0 -\n1 3 5 5 5 -\nend\n");
}

#[test]
fn missing_empty_and_unended_lines() {
    assert_eq!(run(""), "bad 1\n");
    assert_eq!(run("\n"), "bad 1\n");
    assert_eq!(run("3 4 1 0 3 4"), "bad 1\n");
    assert_eq!(run("3 4 1 0 3 4\n"), "bad 2\n");
    assert_eq!(run("3 4 1 0 3 4\n5 5 5 0"), "bad 2\n");
    assert_eq!(run("3 4 1 0 3 4\n\n"), "bad 2\n");
    assert_eq!(after_start(""), "end\n");
    assert_eq!(after_start("go"), "bad 3\n");
    assert_eq!(after_start("go\n\n"), "1 1 0 0 0 -\nbad 4\n");
    assert_eq!(after_start("go\ngo"), "1 1 0 0 0 -\nbad 4\n");
}

#[test]
fn long_input() {
    let mut input = START.to_string();
    while input.len() + 8 <= drill::LONGEST_INPUT {
        input.push_str("cut 0 0\n");
    }
    assert_eq!(run(&input), "end\n");
    // Filled up with empty lines, of which the first is bad, and then one byte more.
    let lines = input.matches('\n').count();
    input.push_str(&"\n".repeat(drill::LONGEST_INPUT - input.len()));
    assert_eq!(run(&input), format!("bad {}\n", lines + 1));
    input.push('\n');
    assert_eq!(run(&input), "long\n");
}

#[test]
fn bad_first_lines() {
    for line in [
        "3 4 1 0 2 4",
        "3 4 1 0 4 4",
        "0 4 1 0 3 4",
        "3 0 0 0 0 0",
        "3 33 0 0 1 33",
        "3 4 1 0",
        "3 4 1 0 3",
        "3 4 1 0 3 ",
        "3 4 1 0 3 4 ",
        " 3 4 1 0 3 4",
        "3  4 1 0 3 4",
        "3 4 1 0 3 4 0",
        "3 4 1 0 3 4 4",
        "03 4 1 0 3 4",
        "+3 4 1 0 3 4",
        "3 4 1 0 3 4\r",
        "259 4 1 0 3 4",
        "3 260 1 0 3 4",
        "3 4 1 -0 3 4",
        "3 4 1 00 3 4",
        "3 4 1 0 18446744073709551619 4",
        "3\t4 1 0 3 4",
        "a 4 1 0 3 4",
        // The group size: refused with 17, or no number of a byte.
        "3 4 1 0 3 0",
        "3 4 1 0 3 3",
        "3 4 1 0 3 5",
        "3 4 1 0 3 255",
        "3 4 1 0 3 260",
        "3 4 1 0 3 04",
        "3 4 1 0 3 -4",
        "3 4 1 0 3 c",
    ] {
        assert_eq!(run(&format!("{line}\n5 5 5 0\ngo\n")), "bad 1\n", "{line:?}");
    }
}

#[test]
fn bad_second_lines() {
    for line in ["5 5 5", "5 5 5 0 0", "5 5 5 65536", "5 5 5 ", "5 5 5 0 ", "5 5 05 0", "5 5 5 -", "5 5 5 00"] {
        assert_eq!(run(&format!("3 4 1 0 3 4\n{line}\ngo\n")), "bad 2\n", "{line:?}");
    }
}

#[test]
fn bad_later_lines() {
    for line in [
        "",
        " ",
        "g",
        "go ",
        " go",
        "go 0",
        "Go",
        "go\r",
        "stop",
        "end",
        "cut",
        "cut 0",
        "cut 0 4",
        "cut 4 0",
        "cut 0 0 0",
        "cut 0  1",
        "cut 00 1",
        "cut -1 0",
        "cut 0 1 ",
        "cut a 0",
        "say 3 0 5",
        "say 3 0 5 0 0",
        "say 0 1 5 0",
        "say 3 4 5 0",
        "say 4 0 5 0",
        "say 3 0 0 0",
        "say 3 0 65536 0",
        "say 3 0 5 1",
        "say 3 0 5 00",
        "say 3 0 5 0 ",
        "say 3 0 99999999999999999999 0",
    ] {
        assert_eq!(after_start(&format!("{line}\ngo\n")), "bad 3\n", "{line:?}");
    }
}

#[test]
fn stamps_of_says_are_bounded_by_the_round() {
    assert_eq!(
        after_start("say 3 0 5 0\ngo\nsay 3 0 5 0\ngo\nsay 3 0 5 1\ngo\nsay 3 0 5 1\n").lines().last(),
        Some("end")
    );
    assert_eq!(after_start("go\nsay 3 0 5 1\n"), "1 1 0 0 0 -\nbad 4\n");
    assert_eq!(after_start("go\ngo\nsay 3 0 5 2\n").lines().last(), Some("bad 5"));
    assert_eq!(after_start("go\ngo\ngo\nsay 3 0 5 2\n").lines().last(), Some("bad 6"));
    // In class 1 too, where stamps play no part.
    let class_1 = "1 6 1 0 5 6\n5 5 5 5 5 0\n";
    assert_eq!(run(&format!("{class_1}say 5 0 5 1\n")), "bad 3\n");
    assert_eq!(run(&format!("{class_1}go\nsay 5 0 5 1\n")), "1 1 0 0 0 0 0 -\nend\n");
    assert_eq!(run(&format!("{class_1}go\nsay 5 0 5 2\n")), "1 1 0 0 0 0 0 -\nbad 4\n");
}

#[test]
fn says_and_cuts() {
    // Two plans, no majority but by the Byzantine node's say: nodes 0 and 1 say 5, node 2 says 6.
    let start = "3 4 1 0 3 4\n5 5 6 0\n";
    let to_all = |v, t| (0..4).map(|r| format!("say 3 {r} {v} {t}\n")).collect::<String>();
    // A say to the Byzantine node itself is allowed and without effect; of two says for one pair the last stands.
    let won = run(&format!("{start}{}{}go\ngo\n{}go\n", to_all(6, 0), to_all(5, 0), to_all(9, 1)));
    assert_eq!(won, "1 1 0 0 0 -\n1 2 0 0 0 -\n1 3 5 5 5 -\nend\n");
    // A cut wins over a say, whichever comes first, and lasts until the next go: node 0 lacks the fourth slot.
    for lines in ["cut 2 0\nsay 3 0 5 0\ncut 3 0\n", "cut 3 0\nsay 3 0 5 0\ncut 2 0\n"] {
        let output = run(&format!("{start}{lines}cut 2 1\nsay 3 1 5 0\ngo\ngo\ngo\n"));
        // Node 0 hears two votes and selects nothing; node 1 hears three.
        assert_eq!(output.lines().nth(2), Some("1 3 0 0 0 -"), "{output}");
    }
    // A node does not hear itself where it is cut off from itself.
    assert_eq!(after_start("go\ngo\ncut 0 0\ngo\n"), "1 1 0 0 0 -\n1 2 0 0 0 -\n1 3 0 5 5 -\nend\n");
}

/// Crew 2,5,1,0,4 with c = 2: nodes 2 and 3 validate in phase 1, nodes 4 and 0 in phase 2, nodes 1 and 2 in phase 3.
/// Both are needed.
#[test]
fn validators_in_turn() {
    let start = "2 5 1 0 4 2\n5 5 5 5 0\n";
    let last_go = |lines: &str| run(&format!("{start}{lines}")).lines().nth_back(1).map(str::to_string);
    assert_eq!(last_go("go\ngo\ngo\n").as_deref(), Some("1 3 5 5 5 5 -"));
    // Where a validator is lost, others cannot take its place, though their says are no bad lines.
    for say in ["", "say 4 0 5 0\n"] {
        assert_eq!(last_go(&format!("go\ncut 2 0\n{say}go\ngo\n")).as_deref(), Some("1 3 0 0 0 0 -"), "{say:?}");
    }
    // The loss of another changes nothing, and its say neither.
    assert_eq!(last_go("go\ncut 1 0\nsay 4 0 6 0\nsay 4 1 6 0\ngo\ngo\n").as_deref(), Some("1 3 5 5 5 5 -"));
    // Phase 1 is lost in its first round. In phase 2 a liar validates, who has to say the plan for it to be validated.
    let lost: String = (0..4).map(|r| format!("cut 0 {r}\ncut 1 {r}\n")).collect();
    let phase_1 = format!("{lost}go\ngo\ngo\n");
    assert_eq!(last_go(&phase_1).as_deref(), Some("1 3 0 0 0 0 -"));
    assert_eq!(last_go(&format!("{phase_1}go\ngo\ngo\n")).as_deref(), Some("2 3 0 0 0 0 -"));
    let says: String = (0..4).map(|r| format!("say 4 {r} 5 0\n")).collect();
    assert_eq!(last_go(&format!("{phase_1}go\n{says}go\ngo\n")).as_deref(), Some("2 3 5 5 5 5 -"));
    // In phase 3 all is well without it.
    assert_eq!(last_go(&format!("{phase_1}{}", "go\n".repeat(6))).as_deref(), Some("3 3 5 5 5 5 -"));
    // Says of a node that does not validate have the checks of any say.
    assert_eq!(run(&format!("{start}go\nsay 4 0 5 1\n")).lines().last(), Some("bad 4"));
    assert_eq!(run(&format!("{start}go\nsay 4 0 0 0\n")).lines().last(), Some("bad 4"));
    assert_eq!(run(&format!("{start}go\nsay 1 0 5 0\n")).lines().last(), Some("bad 4"));
}

#[test]
fn spent() {
    let gos = "go\n".repeat(189);
    let output = after_start(&gos);
    assert_eq!(output.lines().count(), 190);
    assert_eq!(output.lines().nth(188), Some("63 3 5 5 5 -"));
    assert_eq!(output.lines().last(), Some("end"));
    assert_eq!(after_start(&format!("{gos}cut 0 1\n")).lines().last(), Some("end"));
    assert_eq!(after_start(&format!("{gos}go\n")).lines().last(), Some("bad 192"));
    assert_eq!(after_start(&format!("{gos}say 3 0 5 0\n")).lines().last(), Some("bad 192"));
    assert_eq!(after_start(&format!("{gos}cut 0 4\n")).lines().last(), Some("bad 192"));
    let class_1 = format!("1 6 1 0 5 6\n5 5 5 5 5 0\n{}", "go\n".repeat(126));
    assert_eq!(run(&class_1).lines().nth(125), Some("63 3 5 5 5 5 5 -"));
    assert_eq!(run(&format!("{class_1}go\n")).lines().last(), Some("bad 129"));
}

#[test]
fn no_honest_node() {
    let output = run(&format!("1 4 0 1 3 4\n0 0 0 0\n{}", "go\n".repeat(126)));
    assert_eq!(output.lines().next(), Some("1 1 - - - -"));
    assert_eq!(output.lines().nth(1), Some("1 3 - - - -"));
    assert_eq!(output.lines().nth(125), Some("63 3 - - - -"));
    assert_eq!(output.lines().last(), Some("end"));
}

#[test]
fn shorter_messages_leave_nothing_behind() {
    // Silence after a longer message: only node 0 hears enough to select, so the others are silent in round 2.
    let output = after_start("cut 0 1\ncut 0 2\ngo\ngo\ngo\n");
    assert_eq!(output, "1 1 0 0 0 -\n1 2 0 0 0 -\n1 3 0 0 0 -\nend\n");
}
