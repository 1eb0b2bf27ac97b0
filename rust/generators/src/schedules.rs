//! Schedules (C-17): nodes take their rounds in any order, each at its own pace. One flat list of calls on records,
//! where an honest node's slot counts only if it begins with what that node wrote in its own round of that number, in a
//! call that stands earlier.
//! Inboxes depend on what was written, so a schedule is made call by call, on an engine that somebody else drives. What
//! comes out is plain data, which any engine can be given again.

use crate::random::Random;
use crate::runs::{self, Scene, Setup, Weather};
use crate::{crews, inboxes, messages};
use second_engine::inbox::SLOT;
use second_engine::message::{DECISION_LENGTH, HEADER, SELECTION_LENGTH, VALIDATION_LENGTH};
use second_engine::{Crew, Node};

/// A call on a node's record, with the bytes that are lent to it.
#[derive(Clone, Debug, PartialEq, Eq)]
pub enum Call {
    Write(Vec<u8>),
    Ask(Vec<u8>),
    Take(Vec<u8>),
}

/// A call, and the number of the honest node on whose record it is made.
#[derive(Clone, Debug, PartialEq, Eq)]
pub struct Event {
    pub own: usize,
    pub call: Call,
}

/// Starts, and the calls of all nodes in the order in which they are made. Refused calls stand among them.
#[derive(Clone, Debug)]
pub struct Schedule {
    pub setup: Setup,
    pub events: Vec<Event>,
}

/// A crew for a schedule: mostly of up to 7 nodes, and then mostly with Byzantine nodes.
pub fn crew(random: &mut Random, class: u8) -> Crew {
    if random.chance(1, 12) {
        return runs::crew(random, class);
    }
    loop {
        let crew = crews::accepted_of_class(random, class);
        if crew.n <= 7 && (crew.b > 0 || random.chance(1, 8)) {
            return crew;
        }
    }
}

/// Makes a schedule. Whoever asks for the next call makes it, and notes here what was written and taken.
#[derive(Clone, Debug)]
pub struct Maker {
    pub setup: Setup,
    /// By own number; those of Byzantine nodes stay as they are.
    cursors: Vec<Cursor>,
    /// What each number wrote, by its own rounds, as soon as it has.
    written: Vec<Vec<Option<Vec<u8>>>>,
    /// The weather of each phase, as the first node to come there found it.
    weathers: Vec<Weather>,
    pace: Pace,
    /// In how many of 256 calls the pace changes.
    shift: usize,
    /// How many calls may still be made: some schedules break off anywhere.
    left: usize,
}

/// Where a node is in its own rounds.
#[derive(Clone, Debug, Default)]
struct Cursor {
    /// How many rounds it has taken.
    round: usize,
    /// How many it is to take.
    end: usize,
    /// How many calls it makes after these.
    late: usize,
    has_written: bool,
    /// An inbox that it has asked about and not yet taken.
    inbox: Option<Vec<u8>>,
    /// Its weather in the phase that it is in.
    weather: Option<Weather>,
}

impl Cursor {
    fn is_open(&self) -> bool {
        self.round < self.end || self.late > 0
    }
}

/// Who makes the next call.
#[derive(Clone, Debug)]
struct Pace {
    /// The nodes that go on; the others stay behind.
    company: Vec<usize>,
    /// In how many of 64 calls it is one of the others.
    outside: usize,
    /// In how many of 8 calls it is the one that is furthest behind, which keeps them together.
    patience: usize,
}

impl Pace {
    fn new(random: &mut Random, setup: &Setup) -> Pace {
        let mut company = setup.honest();
        random.shuffle(&mut company);
        let (all, reachable) = (company.len(), setup.reachable());
        let any_size = random.between(1, all);
        company.truncate(random.pick(&[any_size, reachable, reachable, reachable, all, all]));
        Pace { company, outside: random.pick(&[0, 0, 2, 8, 32]), patience: random.pick(&[0, 7, 8, 8, 8, 8]) }
    }
}

impl Maker {
    /// With starts, ends and pace, before any call.
    pub fn new(random: &mut Random, crew: Crew) -> Maker {
        let mut setup = Setup::new(random, crew);
        // Nodes out of step miss much as it is, so phases are meant to be good more often than in runs.
        (setup.rounds, setup.good) = (rounds(random, crew), random.pick(&[1, 4, 8, 8]));
        let mut cursors = vec![Cursor::default(); usize::from(crew.n)];
        for (cursor, end) in cursors.iter_mut().zip(ends(random, &setup)) {
            (cursor.end, cursor.late) = (end, random.pick(&[0, 0, 1, 4]));
        }
        let planned: usize = cursors.iter().map(|cursor| 4 * cursor.end + 16).sum();
        let left = if random.chance(1, 8) { random.below(planned / 2) } else { planned };
        let (pace, shift) = (Pace::new(random, &setup), random.pick(&[0, 1, 8]));
        let written = vec![vec![None; usize::from(crew.n)]];
        Maker { setup, cursors, written, weathers: Vec::new(), pace, shift, left }
    }

    /// The next call, or none when all have come to their ends. The records are those that the calls so far gave.
    pub fn next(&mut self, random: &mut Random, records: &[Option<Node>]) -> Option<Event> {
        self.left = self.left.checked_sub(1)?;
        if random.chance(self.shift, 256) {
            self.pace = Pace::new(random, &self.setup);
        }
        let own = self.pick(random)?;
        self.look_out(random, own, records);
        let cursor = &mut self.cursors[own];
        let call = if cursor.round >= cursor.end {
            cursor.late -= 1;
            self.stray_call(random, own, records)
        } else if random.chance(1, 10) {
            self.stray_call(random, own, records)
        } else if !cursor.has_written && random.chance(1, 24) {
            // It takes the round without a write.
            cursor.has_written = true;
            self.ask_or_take(random, own)
        } else if !cursor.has_written {
            self.write(random, own)
        } else {
            self.ask_or_take(random, own)
        };
        Some(Event { own, call })
    }

    /// A write of this node was accepted with these bytes, none for silence.
    pub fn note_written(&mut self, own: usize, bytes: &[u8]) {
        let round = self.cursors[own].round;
        self.written[round][own] = (!bytes.is_empty()).then(|| bytes.to_vec());
    }

    /// A take of this node was accepted.
    pub fn note_taken(&mut self, own: usize) {
        let cursor = &mut self.cursors[own];
        cursor.round += 1;
        (cursor.has_written, cursor.inbox) = (false, None);
        if cursor.round.is_multiple_of(runs::rounds_in_phase(self.setup.crew)) {
            cursor.weather = None;
        }
        if self.written.len() <= cursor.round {
            self.written.push(vec![None; self.cursors.len()]);
        }
    }

    /// The node that makes the next call.
    fn pick(&self, random: &mut Random) -> Option<usize> {
        let mut open = self.setup.honest();
        open.retain(|&own| self.cursors[own].is_open());
        random.shuffle(&mut open);
        let (inside, outside): (Vec<usize>, Vec<usize>) =
            open.into_iter().partition(|own| self.pace.company.contains(own));
        let is_outside = inside.is_empty() || (!outside.is_empty() && random.chance(self.pace.outside, 64));
        let group = if is_outside { outside } else { inside };
        if random.chance(self.pace.patience, 8) {
            let behind = |own: &usize| (self.cursors[*own].round, self.cursors[*own].has_written);
            return group.into_iter().min_by_key(behind);
        }
        group.first().copied()
    }

    /// Gives a node that comes to a phase its weather. That is mostly the phase's, so that nodes hear the same; but
    /// Byzantine nodes that have heard the nodes ahead may have something else in mind for one that comes late.
    fn look_out(&mut self, random: &mut Random, own: usize, records: &[Option<Node>]) {
        let Some((phase, _)) = self.place(own) else { return };
        if self.cursors[own].weather.is_some() {
            return;
        }
        for coming in self.weathers.len() as u8 + 1..=phase {
            self.weathers.push(self.weather(random, coming, records));
        }
        let weather = if random.chance(1, 8) {
            self.weather(random, phase, records)
        } else {
            self.weathers[usize::from(phase) - 1].clone()
        };
        self.cursors[own].weather = Some(weather);
    }

    /// A weather in which the nodes that go on together hear each other in good phases, if they are enough for that.
    fn weather(&self, random: &mut Random, phase: u8, records: &[Option<Node>]) -> Weather {
        let mut weather = Weather::new(random, &self.setup, phase, records);
        if self.pace.company.len() >= self.setup.reachable() {
            weather.circle.clone_from(&self.pace.company);
        }
        weather
    }

    /// The phase and round that the node is in, or none when it is spent.
    fn place(&self, own: usize) -> Option<(u8, u8)> {
        runs::place(self.setup.crew, self.cursors[own].round)
    }

    /// The write of the node's round. One that is kept from writing gets a short buffer, and goes on without.
    fn write(&mut self, random: &mut Random, own: usize) -> Call {
        let cursor = &mut self.cursors[own];
        cursor.has_written = true;
        let is_kept = cursor.weather.as_ref().is_some_and(|weather| weather.is_kept_from_writing(random, own));
        if is_kept {
            short_write(random)
        } else {
            whole_write(random)
        }
    }

    /// The take of the node's round, or an ask about the inbox that it is going to take.
    fn ask_or_take(&mut self, random: &mut Random, own: usize) -> Call {
        if let Some(inbox) = self.cursors[own].inbox.take() {
            return Call::Take(inbox);
        }
        let inbox = self.inbox(random, own);
        if random.chance(1, 6) {
            self.cursors[own].inbox = Some(inbox.clone());
            return Call::Ask(inbox);
        }
        Call::Take(inbox)
    }

    /// A call that takes no round: refused or not, it changes no record. When the node is spent, any call.
    fn stray_call(&self, random: &mut Random, own: usize, records: &[Option<Node>]) -> Call {
        let inbox = self.inbox(random, own);
        match random.below(8) {
            0 | 1 => short_write(random),
            2 => whole_write(random),
            3 => Call::Ask(self.hostile_inbox(random, own, records).unwrap_or(inbox)),
            4 => Call::Ask(of_wrong_length(random, inbox)),
            5 => Call::Ask(inbox),
            _ if self.place(own).is_none() => Call::Take(inbox),
            _ => Call::Take(of_wrong_length(random, inbox)),
        }
    }

    /// What the node hears: of the honest only what they have written in the round of this number.
    fn inbox(&self, random: &mut Random, own: usize) -> Vec<u8> {
        let cursor = &self.cursors[own];
        let (Some((phase, round)), Some(weather)) = (self.place(own), &cursor.weather) else {
            return vec![0; SLOT * self.cursors.len()];
        };
        let old = self.foreign_messages(random, cursor.round);
        let written = &self.written[cursor.round];
        Scene { setup: &self.setup, weather, phase, round, written, old: &old }.inbox(random, own)
    }

    /// Messages that do not count in this round: of rounds behind and ahead, and of the next one also such as nobody
    /// wrote. They may lie in anybody's slot.
    fn foreign_messages(&self, random: &mut Random, round: usize) -> Vec<Vec<u8>> {
        let mut foreign = Vec::new();
        let any_round = random.below(self.written.len());
        for other in [round.wrapping_sub(1), round + 1, round + 1, any_round] {
            let from = random.below(self.cursors.len());
            foreign.extend(self.written.get(other).and_then(|written| written[from].clone()));
        }
        if let Some((phase, number)) = runs::place(self.setup.crew, round + 1) {
            let fields = messages::within(random, u16::from(number), self.setup.run, phase, &self.setup.pool);
            foreign.push(fields.layout());
        }
        foreign
    }

    /// An inbox in which honest slots count as well and nobody wrote them. Asks may be about any inbox.
    fn hostile_inbox(&self, random: &mut Random, own: usize, records: &[Option<Node>]) -> Option<Vec<u8>> {
        self.place(own)?;
        records[own].map(|node| inboxes::whole(random, &node, &self.setup.pool))
    }
}

/// How many rounds the fastest nodes take: mostly those of few phases, sometimes all there are.
fn rounds(random: &mut Random, crew: Crew) -> usize {
    let (in_phase, all) = (runs::rounds_in_phase(crew), runs::rounds_in_all(crew));
    match random.below(64) {
        0 => all,
        1 => random.between(0, all),
        _ => random.between(1, 5) * in_phase + random.below(in_phase),
    }
}

/// How many rounds each number takes: all the same, any, or few but for one that races.
fn ends(random: &mut Random, setup: &Setup) -> Vec<usize> {
    let (most, few) = (setup.rounds, random.below(4).min(setup.rounds));
    let racer = random.pick(&setup.honest());
    let is_long = most > 30 && random.chance(7, 8);
    let kind = if is_long { 2 } else { random.below(12) };
    let end = |own: usize| match kind {
        0 => random.between(0, most),
        1 => random.pick(&[0, few, most]),
        2 if own != racer => few,
        _ => most,
    };
    (0..setup.is_honest.len()).map(end).collect()
}

/// A write with room for every message.
fn whole_write(random: &mut Random) -> Call {
    let length = SLOT + random.below(3);
    Call::Write(random.bytes(length))
}

/// A write with room for few messages or for none. Silence fits in any buffer.
fn short_write(random: &mut Random) -> Call {
    let length = random.pick(&[
        0,
        1,
        HEADER - 1,
        HEADER,
        HEADER + 1,
        VALIDATION_LENGTH - 1,
        VALIDATION_LENGTH,
        DECISION_LENGTH,
        SELECTION_LENGTH,
    ]);
    Call::Write(random.bytes(length))
}

/// The inbox, cut or made longer.
fn of_wrong_length(random: &mut Random, mut inbox: Vec<u8>) -> Vec<u8> {
    let right = inbox.len();
    inbox.resize(random.pick(&[0, 1, right - SLOT, right - 1, right + 1, right + SLOT]), 0);
    inbox
}
