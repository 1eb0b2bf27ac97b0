//! Node records: sound ones, also such as no run reaches, unsound ones, and damaged ones, which may be either.

use crate::random::Random;
use crate::{crews, plans};
use second_engine::message::LAST_PHASE;
use second_engine::node::{DECISION, SELECTION, VALIDATION};
use second_engine::{Crew, Node, Plan};

/// A sound record of any accepted crew.
pub fn sound(random: &mut Random) -> Node {
    let crew = crews::accepted(random);
    let pool = plans::pool(random);
    sound_of(random, crew, &pool)
}

/// A sound record of this crew with plans of this pool.
pub fn sound_of(random: &mut Random, crew: Crew, pool: &[Plan]) -> Node {
    let any_phase = random.between(1, usize::from(Node::SPENT)) as u8;
    let phase = random.pick(&[1, 2, 3, LAST_PHASE - 1, LAST_PHASE, Node::SPENT, any_phase, any_phase]);
    let round = match crew.class {
        _ if phase == Node::SPENT => SELECTION,
        1 => random.pick(&[SELECTION, DECISION]),
        _ => random.pick(&[SELECTION, VALIDATION, DECISION]),
    };
    let mut history = [0; Node::ENTRIES];
    let selected = usize::from(phase) + usize::from(round != SELECTION);
    let is_full = random.chance(1, 3);
    for entry in &mut history[..selected] {
        *entry = if is_full { random.pick(pool) } else { plans::some_or_none(random, pool) };
    }
    history[0] = random.pick(pool);
    let highest = phase - u8::from(round != DECISION);
    let any_stamp = random.between(0, usize::from(highest)) as u8;
    let stamp = match crew.class {
        1 => 0,
        _ => random.pick(&[0, highest, any_stamp]),
    };
    let any_run = random.number() as u32;
    Node {
        crew,
        own: random.below(usize::from(crew.n)) as u8,
        run: random.pick(&[0, 1, u32::MAX, any_run]),
        phase,
        round,
        vote: random.pick(pool),
        base: random.pick(pool),
        stamp,
        select: plans::some_or_none(random, pool),
        result: if random.chance(1, 2) { 0 } else { random.pick(pool) },
        history,
    }
}

/// A sound record with one condition of soundness broken.
pub fn unsound(random: &mut Random) -> Node {
    loop {
        let mut node = sound(random);
        break_condition(random, &mut node);
        if !node.is_sound() {
            return node;
        }
    }
}

fn break_condition(random: &mut Random, node: &mut Node) {
    match random.below(12) {
        0 => node.crew = crews::near_accepted(random),
        1 => node.own = random.pick(&[node.crew.n, node.crew.n + 1, 255]),
        2 => node.phase = random.pick(&[0, Node::SPENT + 1, 128, 255]),
        3 => node.round = random.pick(&[0, 4, 255]),
        4 => node.round = VALIDATION,
        5 => (node.phase, node.round) = (Node::SPENT, random.pick(&[VALIDATION, DECISION])),
        6 => node.vote = 0,
        7 => node.base = 0,
        8 => node.history[0] = 0,
        9 => node.stamp = random.pick(&[1, node.phase, node.phase + 1, 255]),
        10 => node.crew.c = crews::odd_group(random, node.crew),
        _ => {
            let least = usize::from(node.phase) + usize::from(node.round != SELECTION);
            let last = Node::ENTRIES - 1;
            let entry = random.pick(&[least, least + 1, last]).min(last);
            node.history[entry] = plans::any(random);
        }
    }
}

/// Numbers of nodes, of votes and of validators that a damaged record may have are below this, which is a little above
/// the most.
const NUMBERS: u8 = Crew::MOST_NODES as u8 + 8;
/// And so with phases.
const PHASES: u8 = Node::SPENT + 6;

/// A sound record with up to three fields changed at random.
pub fn damaged(random: &mut Random) -> Node {
    let mut node = sound(random);
    for _ in 0..random.between(1, 3) {
        match random.below(15) {
            0 => node.crew.class = random.byte() % 5,
            1 => node.crew.n = random.byte() % NUMBERS,
            2 => node.crew.b = random.byte() % 12,
            3 => node.crew.f = random.byte() % 12,
            4 => node.crew.d = random.byte() % NUMBERS,
            5 => node.own = random.byte() % NUMBERS,
            6 => node.phase = random.byte() % PHASES,
            7 => node.round = random.byte() % 5,
            8 => node.vote = random.number() as Plan % 3,
            9 => node.base = random.number() as Plan % 3,
            10 => node.stamp = random.byte() % PHASES,
            11 => node.select = random.number() as Plan,
            12 => node.result = random.number() as Plan,
            13 => node.crew.c = random.byte() % NUMBERS,
            _ => node.history[random.below(Node::ENTRIES)] = random.number() as Plan % 3,
        }
    }
    node
}

/// Any record: mostly sound, else unsound or damaged.
pub fn any(random: &mut Random) -> Node {
    match random.below(8) {
        0 => unsound(random),
        1 => damaged(random),
        _ => sound(random),
    }
}
