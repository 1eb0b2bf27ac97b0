//! The drill: a script of cuts, says and gos on standard input, the results after each round on standard output
//! (01, 'The drill'). Here it is a function from the input's bytes to the output's.

use crate::crew::Crew;
use crate::inbox::SLOT;
use crate::message::{self, LONGEST};
use crate::mutation::Mutation;
use crate::node::{self, Node};
use crate::plan::Plan;
use crate::rounds;

/// 01: "over 65,536 bytes: prints `long` only"
pub const LONGEST_INPUT: usize = 65_536;
/// 01: "The drill lends each node an inbox of 6,464 bytes, cut to 202n."
const INBOX: usize = SLOT * Crew::MOST_NODES;
/// 01: "Run is 1."
const RUN: u32 = 1;
/// 01: "each line ends in byte 10"
const LINE_END: u8 = 10;

/// The output for this input.
pub fn run(input: &[u8]) -> Vec<u8> {
    run_mutated(input, Mutation::Unmutated)
}

/// As `run`, with a wrong rule.
pub fn run_mutated(input: &[u8], mutation: Mutation) -> Vec<u8> {
    if input.len() > LONGEST_INPUT {
        return b"long\n".to_vec();
    }
    let mut output = Vec::new();
    match run_lines(input, mutation, &mut output) {
        // 01: "The end prints `end`."
        Ok(()) => output.extend_from_slice(b"end\n"),
        // 01: "A bad line L .. prints `bad L` and stops, without `end`."
        Err(BadLine(line)) => output.extend_from_slice(format!("bad {line}\n").as_bytes()),
    }
    output
}

/// The number of the line that is bad; lines are counted from 1.
struct BadLine(usize);

fn run_lines(input: &[u8], mutation: Mutation, output: &mut Vec<u8>) -> Result<(), BadLine> {
    let mut lines = input.split_inclusive(|&byte| byte == LINE_END);
    let crew = lines.next().and_then(|line| crew_of_line(line, mutation)).ok_or(BadLine(1))?;
    let mut drill = lines.next().and_then(|line| Drill::of_line(crew, line, mutation)).ok_or(BadLine(2))?;
    for (line, place) in lines.zip(3..) {
        drill.obey(line, mutation, output).ok_or(BadLine(place))?;
    }
    Ok(())
}

/// 01: "Line 1: class n b f D." 02 (C-13): "The drill's line 1 takes c as a sixth field." A refused crew makes the line
/// bad.
fn crew_of_line(line: &[u8], mutation: Mutation) -> Option<Crew> {
    let mut fields = fields_of_line(line)?;
    let mut byte = || fields.next().and_then(|field| number(field, u32::from(u8::MAX))).map(|value| value as u8);
    let crew = Crew::new(byte()?, byte()?, byte()?, byte()?, byte()?, byte()?);
    if fields.next().is_some() || crew.accept_mutated(mutation).is_err() {
        return None;
    }
    Some(crew)
}

/// The fields of an ended line. Two spaces, or one at an end, give an empty field, which is no number and no word.
fn fields_of_line(line: &[u8]) -> Option<impl Iterator<Item = &[u8]>> {
    let text = line.strip_suffix(&[LINE_END])?;
    Some(text.split(|&byte| byte == b' '))
}

/// 01: "Fields are decimal without leading zeros"
fn number(field: &[u8], most: u32) -> Option<u32> {
    if field.is_empty() || (field.len() > 1 && field[0] == b'0') {
        return None;
    }
    let mut value = 0u32;
    for &byte in field {
        if !byte.is_ascii_digit() {
            return None;
        }
        value = value.checked_mul(10)?.checked_add(u32::from(byte - b'0'))?;
    }
    (value <= most).then_some(value)
}

/// What one node sends another in the coming round by a say.
#[derive(Clone, Copy)]
struct Say {
    plan: Plan,
    stamp: u8,
}

/// The state between lines. The place of the coming round is kept on its own: there may be no honest node.
struct Drill {
    crew: Crew,
    nodes: [Option<Node>; Crew::MOST_NODES],
    phase: u8,
    round: u8,
    is_cut: [[bool; Crew::MOST_NODES]; Crew::MOST_NODES],
    says: [[Option<Say>; Crew::MOST_NODES]; Crew::MOST_NODES],
}

impl Drill {
    /// 01: "Line 2: n initial plans, 0 for a node that is not honest." Any number of them may be 0.
    fn of_line(crew: Crew, line: &[u8], mutation: Mutation) -> Option<Drill> {
        let mut fields = fields_of_line(line)?;
        let mut nodes = [None; Crew::MOST_NODES];
        for own in 0..crew.n {
            let plan = number(fields.next()?, u32::from(Plan::MAX))? as Plan;
            // A start with plan 0 is refused, which makes no node.
            nodes[usize::from(own)] = Node::start_mutated(crew, own, RUN, plan, mutation).ok();
        }
        if fields.next().is_some() {
            return None;
        }
        Some(Drill {
            crew,
            nodes,
            phase: 1,
            round: node::SELECTION,
            is_cut: [[false; Crew::MOST_NODES]; Crew::MOST_NODES],
            says: [[None; Crew::MOST_NODES]; Crew::MOST_NODES],
        })
    }

    /// Does what a line from the third on says; nothing where the line is bad.
    fn obey(&mut self, line: &[u8], mutation: Mutation, output: &mut Vec<u8>) -> Option<()> {
        let mut fields = fields_of_line(line)?;
        let word = fields.next()?;
        let rest: [Option<&[u8]>; 5] = std::array::from_fn(|_| fields.next());
        match (word, rest) {
            (b"cut", [Some(s), Some(r), None, ..]) => self.cut(s, r),
            (b"say", [Some(s), Some(r), Some(v), Some(t), None]) => self.say(s, r, v, t),
            (b"go", [None, ..]) => self.go(mutation, output),
            _ => None,
        }
    }

    /// 01: "`cut s r` (s to r is lost)", also when spent
    fn cut(&mut self, s: &[u8], r: &[u8]) -> Option<()> {
        let (s, r) = (self.node_number(s)?, self.node_number(r)?);
        self.is_cut[s][r] = true;
        Some(())
    }

    /// 01: "`say s r v t` (s, not honest, sends r in the coming round plan v with stamp t and no entries; t is 0 in
    /// round 2; .. s and r are any nodes otherwise)", "of two says for one pair the last stands". A node that does not
    /// validate may say something in round 2 as well: it is sent, and does not count.
    fn say(&mut self, s: &[u8], r: &[u8], v: &[u8], t: &[u8]) -> Option<()> {
        let (s, r) = (self.node_number(s)?, self.node_number(r)?);
        let plan = number(v, u32::from(Plan::MAX))? as Plan;
        let stamp = number(t, self.highest_stamp())? as u8;
        // 01: bad are also "a say from an honest node", "a go or say when spent"
        if plan == 0 || self.is_spent() || self.nodes[s].is_some() {
            return None;
        }
        self.says[s][r] = Some(Say { plan, stamp });
        Some(())
    }

    fn node_number(&self, field: &[u8]) -> Option<usize> {
        number(field, u32::from(self.crew.n) - 1).map(|value| value as usize)
    }

    /// The bound on stamps of the coming round's message: below the phase, 0, or at most the phase.
    fn highest_stamp(&self) -> u32 {
        match self.round {
            node::SELECTION => u32::from(self.phase) - 1,
            node::VALIDATION => 0,
            _ => u32::from(self.phase),
        }
    }

    fn is_spent(&self) -> bool {
        self.phase == Node::SPENT
    }

    /// One whole round: every honest node writes, then every honest node takes.
    fn go(&mut self, mutation: Mutation, output: &mut Vec<u8>) -> Option<()> {
        if self.is_spent() {
            return None;
        }
        let (written, lengths) = self.write_all(mutation);
        for r in 0..usize::from(self.crew.n) {
            if let Some(mut node) = self.nodes[r] {
                // The inbox is cleared for each node and round.
                let mut inbox = [0; INBOX];
                self.fill(r, &written, &lengths, &mut inbox);
                let part = &inbox[..SLOT * usize::from(self.crew.n)];
                rounds::take_mutated(&mut node, part, mutation).expect("records and inboxes of the drill are sound");
                self.nodes[r] = Some(node);
            }
        }
        self.print(output);
        self.go_on();
        Some(())
    }

    /// What the honest nodes send, with the lengths; 0 for silence and for nodes that are not honest.
    fn write_all(&self, mutation: Mutation) -> ([[u8; LONGEST]; Crew::MOST_NODES], [usize; Crew::MOST_NODES]) {
        let mut written = [[0; LONGEST]; Crew::MOST_NODES];
        let mut lengths = [0; Crew::MOST_NODES];
        for (s, node) in self.nodes.iter().enumerate() {
            if let Some(node) = node {
                lengths[s] = node.write_mutated(&mut written[s], mutation).expect("the longest message fits");
            }
        }
        (written, lengths)
    }

    /// Fills the cleared inbox of node r. 01: "a cut wins over a say", "without a say it sends r nothing"
    fn fill(
        &self,
        r: usize,
        written: &[[u8; LONGEST]; Crew::MOST_NODES],
        lengths: &[usize; Crew::MOST_NODES],
        inbox: &mut [u8; INBOX],
    ) {
        for (s, slot) in inbox.chunks_exact_mut(SLOT).enumerate() {
            if self.is_cut[s][r] {
                continue;
            }
            slot[..lengths[s]].copy_from_slice(&written[s][..lengths[s]]);
            if let Some(say) = self.says[s][r] {
                self.put_say(say, slot);
            }
        }
    }

    /// Writes a say's message, which has the kind of the coming round and no entries.
    fn put_say(&self, say: Say, slot: &mut [u8]) {
        let put = match self.round {
            node::SELECTION => message::put_selection(RUN, self.phase, say.plan, say.stamp, &[], slot),
            node::VALIDATION => message::put_validation(RUN, self.phase, say.plan, slot),
            _ => message::put_decision(RUN, self.phase, say.plan, say.stamp, slot),
        };
        put.expect("a slot holds any message");
    }

    /// 01: "Each go prints phase, round just done, and each node's result, `-` if not honest."
    fn print(&self, output: &mut Vec<u8>) {
        let mut line = format!("{} {}", self.phase, self.round);
        for node in &self.nodes[..usize::from(self.crew.n)] {
            match node {
                Some(node) => line.push_str(&format!(" {}", node.result)),
                None => line.push_str(" -"),
            }
        }
        output.extend_from_slice(line.as_bytes());
        output.push(LINE_END);
    }

    /// On to the next round. 01: "Cuts and says last until the next go"
    fn go_on(&mut self) {
        match self.round {
            node::SELECTION if self.crew.class == 1 => self.round = node::DECISION,
            node::DECISION => {
                self.phase += 1;
                self.round = node::SELECTION;
            }
            _ => self.round += 1,
        }
        self.is_cut = [[false; Crew::MOST_NODES]; Crew::MOST_NODES];
        self.says = [[None; Crew::MOST_NODES]; Crew::MOST_NODES];
    }
}
