//! Absence over the last hundred runs (02, C-24): the window over finished runs, and the lines of counts that a program
//! prints for the records of its input. Counts are worked out afresh from the records held; none is kept.
//! Every rule takes the mutation that makes it wrong; the public operations pass none.

use crate::crew::Crew;
use crate::mutation::Mutation;
use crate::refusal::Refusal;
use std::collections::VecDeque;

/// 02: "32 marks for the slots that counted in the round that decided", so one for each node there can be.
pub const NODES: usize = Crew::MOST_NODES;
/// 02: "The window holds the newest 100"
pub const MOST_HELD: usize = 100;
/// 02: "takes such records from standard input, the first 1,000,000 at most". Refused ones are among them.
pub const MOST_RECORDS: usize = 1_000_000;
/// 02: "8 bytes each (run, then marks as one number, node q its bit of weight 2 to the q; a remnant is dropped)"
pub const RECORD: usize = 2 * NUMBER;

/// How many bytes a run has, and how many the marks have.
const NUMBER: usize = size_of::<u32>();

/// 02: "a record is a run number and 32 marks for the slots that counted in the round that decided"
#[derive(Clone, Copy, Debug, PartialEq, Eq)]
pub struct Record {
    pub run: u32,
    /// As one number, node q its bit of weight 2 to the q.
    pub marks: u32,
}

impl Record {
    /// The record of these bytes. 01: "byte order is little-endian"
    pub fn from_bytes(bytes: [u8; RECORD]) -> Record {
        Record::from_bytes_mutated(bytes, Mutation::Unmutated)
    }

    /// The bytes of the record.
    pub fn to_bytes(self) -> [u8; RECORD] {
        let mut bytes = [0; RECORD];
        bytes[..NUMBER].copy_from_slice(&self.run.to_le_bytes());
        bytes[NUMBER..].copy_from_slice(&self.marks.to_le_bytes());
        bytes
    }

    /// As `from_bytes`, with a wrong rule.
    fn from_bytes_mutated(bytes: [u8; RECORD], mutation: Mutation) -> Record {
        let number = |place: usize| {
            let mut number = [0; NUMBER];
            number.copy_from_slice(&bytes[place..place + NUMBER]);
            match mutation {
                Mutation::BigEndianRecords => u32::from_be_bytes(number),
                _ => u32::from_le_bytes(number),
            }
        };
        let (first, second) = (number(0), number(NUMBER));
        match mutation {
            Mutation::MarksBeforeRun => Record { run: second, marks: first },
            Mutation::MarksReadFromTheOtherEnd => Record { run: first, marks: second.reverse_bits() },
            _ => Record { run: first, marks: second },
        }
    }
}

/// The newest records, the oldest first. By default it is empty.
#[derive(Clone, Debug, Default)]
pub struct Window {
    held: VecDeque<Record>,
    mutation: Mutation,
}

impl Window {
    /// The records held, the oldest first.
    pub fn held(&self) -> impl Iterator<Item = Record> + '_ {
        self.held.iter().copied()
    }

    /// Adds a record, or refuses it. 02: "It refuses with 23 a record whose run number is that of the newest held,
    /// leaving the window unchanged."
    pub fn add(&mut self, record: Record) -> Result<(), Refusal> {
        let is_refused = self.is_refused(record);
        if !is_refused || self.mutation == Mutation::RefusedRecordAdded {
            self.push(record);
        }
        if is_refused {
            return Err(Refusal::SameRun);
        }
        Ok(())
    }

    /// Whether the record's run number is that of the newest held. An empty window has no newest, and refuses nothing.
    fn is_refused(&self, record: Record) -> bool {
        let is_same = |held: &Record| held.run == record.run;
        match self.mutation {
            Mutation::AnyHeldRunRefused => self.held.iter().any(is_same),
            Mutation::OldestRunCompared => self.held.front().is_some_and(is_same),
            Mutation::EmptyWindowRefusesRunZero => self.held.back().map_or(record.run == 0, is_same),
            _ => self.held.back().is_some_and(is_same),
        }
    }

    /// 02: "Adding to a full window drops the oldest"
    fn push(&mut self, record: Record) {
        let most = match self.mutation {
            Mutation::NinetyNineHeld => MOST_HELD - 1,
            Mutation::HundredAndOneHeld => MOST_HELD + 1,
            _ => MOST_HELD,
        };
        if self.held.len() == most {
            if self.mutation == Mutation::NewestDropped {
                return;
            }
            self.held.pop_front();
        }
        self.held.push_back(record);
    }

    /// 02: "for each node, how many of them miss it"
    pub fn counts(&self) -> [u32; NODES] {
        let mut counts = [0; NODES];
        for record in &self.held {
            for (q, count) in counts.iter_mut().enumerate() {
                *count += u32::from(record.marks & (1 << q) == 0);
            }
        }
        if self.mutation == Mutation::PresenceCounted {
            return counts.map(|count| self.held.len() as u32 - count);
        }
        counts
    }
}

/// The program on an input that comes in pieces.
#[derive(Clone, Debug)]
pub struct Stream {
    window: Window,
    /// How many records are still taken.
    left: usize,
    /// What came after the last whole record: fewer bytes than a record has.
    rest: Vec<u8>,
}

impl Default for Stream {
    fn default() -> Stream {
        Stream::mutated(Mutation::Unmutated)
    }
}

impl Stream {
    /// The program before its input, with a wrong rule.
    pub fn mutated(mutation: Mutation) -> Stream {
        let left = match mutation {
            Mutation::OneRecordTooMany => MOST_RECORDS + 1,
            _ => MOST_RECORDS,
        };
        Stream { window: Window { mutation, ..Window::default() }, left, rest: Vec::new() }
    }

    /// Whether nothing of the input is looked at any more.
    pub fn is_done(&self) -> bool {
        self.left == 0
    }

    /// Takes the input's next bytes, as many as there are, and prints the lines of the records that are whole then.
    pub fn take(&mut self, bytes: &[u8], output: &mut Vec<u8>) {
        self.rest.extend_from_slice(bytes);
        let waiting = std::mem::take(&mut self.rest);
        let (records, rest) = waiting.as_chunks::<RECORD>();
        for &record in records {
            self.take_record(record, output);
        }
        self.rest.extend_from_slice(rest);
    }

    /// The input is over. 02: "a remnant is dropped"
    pub fn end(mut self, output: &mut Vec<u8>) {
        if self.window.mutation == Mutation::RemnantTaken && !self.rest.is_empty() {
            let missing = RECORD - self.rest.len();
            self.take(&[0; RECORD][..missing], output);
        }
    }

    /// 02: "and prints the 32 counts after each, refused ones too, on one line parted by spaces"
    fn take_record(&mut self, bytes: [u8; RECORD], output: &mut Vec<u8>) {
        if self.left == 0 {
            return;
        }
        let mutation = self.window.mutation;
        let is_added = self.window.add(Record::from_bytes_mutated(bytes, mutation)).is_ok();
        self.left -= usize::from(is_added || mutation != Mutation::RefusedRecordsNotCounted);
        if is_added || mutation != Mutation::NoLineForRefused {
            put_line(&self.window.counts(), output);
        }
    }
}

/// The counts in decimal, one space between two of them, and the line's end.
fn put_line(counts: &[u32; NODES], output: &mut Vec<u8>) {
    for (q, &count) in counts.iter().enumerate() {
        if q > 0 {
            output.push(b' ');
        }
        put_number(count, output);
    }
    output.push(b'\n');
}

/// A number in decimal, without leading zeros.
fn put_number(number: u32, output: &mut Vec<u8>) {
    if number >= 10 {
        put_number(number / 10, output);
    }
    output.push(b'0' + (number % 10) as u8);
}

/// What the program prints for this input.
pub fn run(input: &[u8]) -> Vec<u8> {
    run_mutated(input, Mutation::Unmutated)
}

/// As `run`, with a wrong rule.
pub fn run_mutated(input: &[u8], mutation: Mutation) -> Vec<u8> {
    let mut output = Vec::new();
    let mut stream = Stream::mutated(mutation);
    stream.take(input, &mut output);
    stream.end(&mut output);
    output
}
