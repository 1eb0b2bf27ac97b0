//! Drill scripts, valid and damaged.

use crate::random::Random;
use crate::{crews, plans, runs, turns};
use second_engine::drill::LONGEST_INPUT;
use second_engine::message::LAST_PHASE;
use second_engine::{Crew, Plan};

/// A script without a bad line. It may go on to the spent mark, and cut after it.
pub fn valid(random: &mut Random) -> Vec<u8> {
    let mut crew = crews::accepted(random);
    if random.chance(3, 4) {
        while crew.n > 9 {
            crew = crews::accepted(random);
        }
    }
    let pool = plans::pool(random);
    let initial = initial_plans(random, crew, &pool);
    let mut script = Script::new(crew, &initial);
    let gos = random.pick(&[0, 1, 3, 6, 9, 30, runs::rounds_in_all(crew)]);
    let business = random.pick(&[0, 1, 4, 12]);
    for _ in 0..gos {
        for _ in 0..random.between(0, business) {
            script.cut_or_say(random, &initial, &pool);
        }
        script.go();
    }
    if random.chance(1, 4) {
        script.cut(random);
    }
    script.text.into_bytes()
}

/// Mostly some b zeros; sometimes none, or any number of them. Plans are common or of a pool.
fn initial_plans(random: &mut Random, crew: Crew, pool: &[Plan]) -> Vec<Plan> {
    let n = usize::from(crew.n);
    let any_zeros = random.between(0, n);
    let zeros = random.pick(&[0, usize::from(crew.b), usize::from(crew.b), usize::from(crew.b), any_zeros]);
    let mut initial: Vec<Plan> = (0..n).map(|_| random.pick(pool)).collect();
    for place in random.order(n).into_iter().take(zeros) {
        initial[place] = 0;
    }
    initial
}

/// Line 1.
fn crew_line(crew: Crew) -> String {
    let Crew { class, n, b, f, d, c } = crew;
    format!("{class} {n} {b} {f} {d} {c}\n")
}

struct Script {
    text: String,
    crew: Crew,
    phase: usize,
    round: usize,
}

impl Script {
    /// Lines 1 and 2.
    fn new(crew: Crew, initial: &[Plan]) -> Script {
        let mut script = Script { text: String::new(), crew, phase: 1, round: 1 };
        script.text.push_str(&crew_line(crew));
        script.line(&initial.iter().map(Plan::to_string).collect::<Vec<_>>());
        script
    }

    fn line(&mut self, fields: &[String]) {
        self.text.push_str(&fields.join(" "));
        self.text.push('\n');
    }

    fn go(&mut self) {
        self.text.push_str("go\n");
        self.round = match (self.crew.class, self.round) {
            (1, 1) => 3,
            (_, 3) => 1,
            (_, round) => round + 1,
        };
        self.phase += usize::from(self.round == 1);
    }

    /// The highest stamp that a say may have in the coming round.
    fn highest_stamp(&self) -> usize {
        [self.phase - 1, 0, self.phase][self.round - 1]
    }

    /// One cut, or cuts that leave a node half deaf.
    fn cut(&mut self, random: &mut Random) {
        let n = usize::from(self.crew.n);
        let r = random.below(n);
        let count = random.pick(&[1, 1, n.div_ceil(2)]);
        for s in random.order(n).into_iter().take(count) {
            self.text.push_str(&format!("cut {s} {r}\n"));
        }
    }

    /// A cut, or a say of a node that is not honest: often the same to many, and with the highest stamp.
    fn cut_or_say(&mut self, random: &mut Random, initial: &[Plan], pool: &[Plan]) {
        let byzantine: Vec<usize> = (0..initial.len()).filter(|&own| initial[own] == 0).collect();
        if byzantine.is_empty() || random.chance(1, 4) {
            return self.cut(random);
        }
        if self.round == 2 && random.chance(1, 3) {
            return self.stand_in(random, initial);
        }
        let highest = self.highest_stamp();
        let any_stamp = random.between(0, highest);
        let (s, v, t) = (random.pick(&byzantine), random.pick(pool), random.pick(&[0, highest, highest, any_stamp]));
        let (first, last) = if random.chance(1, 2) {
            (0, initial.len())
        } else {
            let r = random.below(initial.len());
            (r, r + 1)
        };
        for r in first..last {
            self.text.push_str(&format!("say {s} {r} {v} {t}\n"));
        }
    }

    /// In round 2 so many validators are cut off that one is missing, and a node that is not honest says what that one
    /// would. If there is such a node whose turn it is not, it is that: its slot does not count, and nobody stands in.
    fn stand_in(&mut self, random: &mut Random, initial: &[Plan]) {
        let is_in_turn = |q: usize| turns::is_validator(self.crew, self.phase as u8, q);
        let heard: Vec<usize> = (0..initial.len()).filter(|&q| initial[q] != 0 && is_in_turn(q)).collect();
        let byzantine = (0..initial.len()).filter(|&q| initial[q] == 0);
        let Some(instead) = byzantine.min_by_key(|&q| is_in_turn(q)) else { return };
        // The least count with 2 × count > c + b.
        let needed = (usize::from(self.crew.c) + usize::from(self.crew.b)) / 2 + 1;
        let cut = (heard.len() + 1).saturating_sub(needed);
        // What most nodes began with, which is what they select if all is heard.
        let votes = |plan: &Plan| initial.iter().filter(|&other| other == plan).count();
        let plan = initial.iter().copied().filter(|&plan| plan != 0).max_by_key(votes).unwrap_or(1);
        let receivers = random.pick(&[1, initial.len()]);
        for r in random.order(initial.len()).into_iter().take(receivers) {
            for from in &heard[..cut] {
                self.text.push_str(&format!("cut {from} {r}\n"));
            }
            self.text.push_str(&format!("say {instead} {r} {plan} 0\n"));
        }
    }
}

/// How many says each round of the longest script has: the most that fit.
const SAYS_OF_LONGEST: usize = 24;

/// The longest run, in a script as long as may be: class 3, 32 nodes, all phases, and in every round as many liars as
/// there can be, each of whom speaks to some honest nodes with the highest stamp. All nodes validate in every phase, so
/// that every slot can count in every round. Cuts after the last round fill it up.
pub fn longest() -> Vec<u8> {
    let crew = Crew::whole(3, 32, 10, 0, 21);
    let liars = usize::from(crew.b);
    let honest = usize::from(crew.n) - liars;
    let plan = |number: usize| 5 + (number % 3) as Plan;
    let initial: Vec<Plan> = (0..honest).map(plan).chain(vec![0; liars]).collect();
    let mut script = Script::new(crew, &initial);
    for round in 0..runs::rounds_in_all(crew) {
        for say in 0..SAYS_OF_LONGEST {
            // The steps are such that no liar speaks to a node twice in a round.
            let (s, r) = (honest + say % liars, (7 * round + 5 * say) % honest);
            let (v, t) = (plan(say + round), script.highest_stamp());
            script.text.push_str(&format!("say {s} {r} {v} {t}\n"));
        }
        script.go();
    }
    // One cut is a byte longer than the other, so that there are as many of it as bytes would be left.
    let (cut, longer_cut) = ("cut 0 0\n", "cut 0 10\n");
    let spare = LONGEST_INPUT - script.text.len();
    let (cuts, left) = (spare / cut.len(), spare % cut.len());
    script.text.push_str(&longer_cut.repeat(left));
    script.text.push_str(&cut.repeat(cuts - left));
    script.text.into_bytes()
}

/// A valid script with one thing wrong with it, or near it.
pub fn damaged(random: &mut Random) -> Vec<u8> {
    let mut script = valid(random);
    match random.below(12) {
        0 => script.truncate(random.below(script.len() + 1)),
        1 => change_byte(random, &mut script),
        2 => insert(random, &mut script, b" "),
        3 => insert(random, &mut script, b"\n"),
        4 => insert(random, &mut script, b"0"),
        5 => insert(random, &mut script, b"\r"),
        6 => append_line(random, &mut script),
        7 => insert_line(random, &mut script),
        8 => {
            let place = random.below(script.len());
            script.remove(place);
        }
        9 => change_group(random, &mut script),
        10 => change_fields_of_crew(random, &mut script),
        _ => lengthen(random, &mut script),
    }
    script
}

/// Where line 1 ends, its last byte not included.
fn end_of_first_line(script: &[u8]) -> usize {
    script.iter().position(|&byte| byte == b'\n').expect("a valid script has lines")
}

/// The crew in line 1 of a valid script.
pub fn crew_of(script: &[u8]) -> Crew {
    let line = String::from_utf8_lossy(&script[..end_of_first_line(script)]);
    let numbers: Vec<u8> = line.split(' ').map(|field| field.parse().expect("a valid crew has bytes")).collect();
    Crew::new(numbers[0], numbers[1], numbers[2], numbers[3], numbers[4], numbers[5])
}

/// Puts another group size in line 1, refused or not.
fn change_group(random: &mut Random, script: &mut Vec<u8>) {
    let crew = crew_of(script);
    let crew = Crew { c: crews::odd_group(random, crew), ..crew };
    script.splice(..=end_of_first_line(script), crew_line(crew).bytes());
}

/// Takes the last field of line 1 away, or adds a seventh.
fn change_fields_of_crew(random: &mut Random, script: &mut Vec<u8>) {
    let end = end_of_first_line(script);
    if random.chance(1, 2) {
        let start = script[..end].iter().rposition(|&byte| byte == b' ').expect("line 1 has several fields");
        script.drain(start..end);
    } else {
        let field = random.pick(&[0, 1, 4]);
        script.splice(end..end, format!(" {field}").bytes());
    }
}

fn change_byte(random: &mut Random, script: &mut [u8]) {
    let place = random.below(script.len());
    let any_byte = random.byte();
    script[place] = random.pick(&[b'0', b'1', b'9', b' ', b'-', b'+', b'\n', 0, 255, any_byte]);
}

fn insert(random: &mut Random, script: &mut Vec<u8>, bytes: &[u8]) {
    let place = random.below(script.len() + 1);
    script.splice(place..place, bytes.iter().copied());
}

/// A line that is bad, or bad in most scripts.
fn odd_line(random: &mut Random) -> String {
    // A node, a plan and a stamp that are each one above the last there can be.
    let no_node = format!("cut 0 {}\n", Crew::MOST_NODES);
    let no_plan = format!("say 0 0 {} 0\n", u64::from(Plan::MAX) + 1);
    let no_stamp = format!("say 0 0 5 {}\n", LAST_PHASE + 1);
    let lines = [
        "\n",
        "GO\n",
        "go \n",
        " go\n",
        "go 1\n",
        "go\r\n",
        "gogo\n",
        "stop\n",
        "cut 0\n",
        "cut 0 0 0\n",
        "cut 0  0\n",
        &no_node,
        "cut 00 0\n",
        "cut +0 0\n",
        "cut 0 4294967296\n",
        "cut 0 18446744073709551616\n",
        "say 0 0 5 0\n",
        "say 0 0 0 0\n",
        &no_plan,
        &no_stamp,
        "say 0 0 5\n",
        "say 0 0 5 0 0\n",
    ];
    random.pick(&lines).to_string()
}

fn append_line(random: &mut Random, script: &mut Vec<u8>) {
    let line = odd_line(random);
    script.extend_from_slice(line.as_bytes());
}

fn insert_line(random: &mut Random, script: &mut Vec<u8>) {
    let line = odd_line(random);
    let ends: Vec<usize> = (0..script.len()).filter(|&place| script[place] == b'\n').map(|place| place + 1).collect();
    let place = random.pick(&ends);
    script.splice(place..place, line.bytes());
}

/// Makes the script as long as may be, or one byte longer, with cuts that do no harm.
fn lengthen(random: &mut Random, script: &mut Vec<u8>) {
    let length = LONGEST_INPUT + random.below(2);
    let cut = b"cut 0 0\n";
    while script.len() + cut.len() <= length {
        script.extend_from_slice(cut);
    }
    while script.len() < length {
        script.push(b'\n');
    }
}

/// Any script.
pub fn any(random: &mut Random) -> Vec<u8> {
    if random.chance(1, 2) {
        valid(random)
    } else {
        damaged(random)
    }
}
