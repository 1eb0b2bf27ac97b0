//! Messages: reading, their entries, and their one encoding (01, 'Messages'). Messages know nothing of crews.

use crate::mutation::Mutation;
use crate::plan::{self, Plan};
use crate::refusal::Refusal;

/// 01: "Header of 9 bytes: length (2, counting every byte of the message), kind (2), run (4), phase (1)."
pub const HEADER: usize = 9;
/// Where the fields after the header stand: 01, "vote (2), stamp (1), k (1)"; kind 2 has its plan where a vote stands.
const PLAN: usize = HEADER;
const STAMP: usize = PLAN + plan::BYTES;
const COUNT: usize = STAMP + 1;
/// 01: "length 13 + 3k", "length 11", "length 12"
pub const SELECTION_LENGTH: usize = COUNT + 1;
pub const VALIDATION_LENGTH: usize = PLAN + plan::BYTES;
pub const DECISION_LENGTH: usize = STAMP + 1;
/// Where the plan stands in an entry, after the phase, and how long an entry is: 01, "k entries of phase (1) and plan
/// (2)"
pub const ENTRY_PLAN: usize = 1;
pub const ENTRY: usize = ENTRY_PLAN + plan::BYTES;
/// 01: "k at most 63"
pub const MOST_ENTRIES: u8 = 63;
pub const MOST_ENTRY_BYTES: usize = ENTRY * MOST_ENTRIES as usize;
/// The longest message: a selection with the most entries.
pub const LONGEST: usize = SELECTION_LENGTH + MOST_ENTRY_BYTES;
/// 01: "phase 1 to 63"
pub const LAST_PHASE: u8 = 63;

/// The fields of a message, without its entries.
#[derive(Clone, Copy, Debug, PartialEq, Eq)]
pub struct Message {
    pub run: u32,
    pub phase: u8,
    pub body: Body,
}

/// What the three kinds carry; k is the number of entries.
#[derive(Clone, Copy, Debug, PartialEq, Eq)]
pub enum Body {
    Selection { vote: Plan, stamp: u8, k: u8 },
    Validation { plan: Plan },
    Decision { vote: Plan, stamp: u8 },
}

impl Message {
    /// 01: "kind 1, selection", "kind 2, validation", "kind 3, decision"
    pub fn kind(&self) -> u8 {
        match self.body {
            Body::Selection { .. } => 1,
            Body::Validation { .. } => 2,
            Body::Decision { .. } => 3,
        }
    }

    /// The length that stands in the header.
    pub fn length(&self) -> usize {
        match self.body {
            Body::Selection { k, .. } => SELECTION_LENGTH + ENTRY * usize::from(k),
            Body::Validation { .. } => VALIDATION_LENGTH,
            Body::Decision { .. } => DECISION_LENGTH,
        }
    }

    /// The vote, in kind 2 the plan.
    pub fn plan(&self) -> Plan {
        match self.body {
            Body::Selection { vote, .. } | Body::Decision { vote, .. } => vote,
            Body::Validation { plan } => plan,
        }
    }

    /// The stamp, 0 in kind 2, which has none.
    pub fn stamp(&self) -> u8 {
        match self.body {
            Body::Selection { stamp, .. } | Body::Decision { stamp, .. } => stamp,
            Body::Validation { .. } => 0,
        }
    }

    /// Whether the message with these entry bytes is within the bounds.
    pub fn is_within_bounds(&self, entries: &[u8]) -> bool {
        // 01: "Bounds: phase 1 to 63; plans not 0"
        if !(1..=LAST_PHASE).contains(&self.phase) || self.plan() == 0 {
            return false;
        }
        // 01: "stamp below the phase in kind 1, at most the phase in kind 3"
        match self.body {
            Body::Selection { stamp, k, .. } => {
                k <= MOST_ENTRIES
                    && entries.len() == ENTRY * usize::from(k)
                    && stamp < self.phase
                    && are_entries_within_bounds(self.phase, entries)
            }
            Body::Validation { .. } => entries.is_empty(),
            Body::Decision { stamp, .. } => entries.is_empty() && stamp <= self.phase,
        }
    }
}

/// 01: "entries whose phases rise strictly and are below the message's phase"; "plans not 0" holds for them too.
fn are_entries_within_bounds(phase: u8, entries: &[u8]) -> bool {
    let mut least = 0;
    for entry in entries.chunks_exact(ENTRY) {
        if entry[0] < least || entry[0] >= phase || plan::at(entry, ENTRY_PLAN) == 0 {
            return false;
        }
        // An entry's phase is below the message's here, so this does not overflow.
        least = entry[0] + 1;
    }
    true
}

/// The entries before the first that breaks a bound. Only a mutant asks: a message is read with all of them or refused.
pub(crate) fn entries_before_a_broken_one(phase: u8, entries: &[u8]) -> &[u8] {
    let mut end = entries.len();
    while !are_entries_within_bounds(phase, &entries[..end]) {
        end -= ENTRY;
    }
    &entries[..end]
}

/// Reads the message at the slice's front, behind which there are zeros only.
pub fn read(slice: &[u8]) -> Result<Message, Refusal> {
    read_with_entries(slice).map(|(message, _)| message)
}

/// As `read`, with a wrong rule.
pub fn read_mutated(slice: &[u8], mutation: Mutation) -> Result<Message, Refusal> {
    read_with_entries_mutated(slice, mutation).map(|(message, _)| message)
}

/// 01: "A second answer to a read, got on its own, shows the entries as a part of the caller's slice: an empty part for
/// kinds 2 and 3 and where reading refuses."
pub fn entries(slice: &[u8]) -> &[u8] {
    read_with_entries(slice).map_or(&[], |(_, entries)| entries)
}

/// As `entries`, with a wrong rule.
pub fn entries_mutated(slice: &[u8], mutation: Mutation) -> &[u8] {
    read_with_entries_mutated(slice, mutation).map_or(&[], |(_, entries)| entries)
}

/// Both answers to a read at once.
pub fn read_with_entries(slice: &[u8]) -> Result<(Message, &[u8]), Refusal> {
    let (message, entries) = parse(slice)?;
    // 01: "13 a bound broken, or k above 63"
    if !message.is_within_bounds(entries) {
        return Err(Refusal::Bound);
    }
    // 02 (C-12): "It refuses with 16 a read with a non-zero byte after the length, tested after 13."
    if !is_clear(&slice[message.length()..]) {
        return Err(Refusal::Residue);
    }
    Ok((message, entries))
}

/// 02 (C-12): "Bytes of the slice after a message must now be zero." All are looked at, whatever the first ones are, so
/// that the compiler tests several at once.
fn is_clear(rest: &[u8]) -> bool {
    rest.iter().fold(0, |found, byte| found | byte) == 0
}

/// As `read_with_entries`, with a wrong rule. What the engine reads every mutant reads too, so that only a refusal is
/// looked at again.
pub(crate) fn read_with_entries_mutated(slice: &[u8], mutation: Mutation) -> Result<(Message, &[u8]), Refusal> {
    read_with_entries(slice).or_else(|refusal| match mutation {
        Mutation::Unmutated => Err(refusal),
        _ => read_refused(slice, refusal, mutation),
    })
}

/// The rules of the mutants of reading, for a slice that the engine refuses. To let residue pass is to read the slice
/// without it. Cold, so that the engine's own reads are compiled as if there were no mutants.
#[cold]
fn read_refused(slice: &[u8], refusal: Refusal, mutation: Mutation) -> Result<(Message, &[u8]), Refusal> {
    let (bytes, rest) = slice.split_at(framed_length(slice)?);
    match mutation {
        Mutation::ResidueIgnored => read_with_entries(bytes),
        Mutation::FirstByteOfResidue if rest.first() == Some(&0) => read_with_entries(bytes),
        Mutation::ResidueOfDecisions if kind_of(bytes) == 3 => read_with_entries(bytes),
        Mutation::ResidueFirst if !is_clear(rest) => Err(Refusal::Residue),
        _ => Err(refusal),
    }
}

/// The length that stands in the header, where the slice has that many bytes.
fn framed_length(slice: &[u8]) -> Result<usize, Refusal> {
    // 01: "10 slice under 9 bytes, length under 9, or length beyond the slice"
    if slice.len() < HEADER {
        return Err(Refusal::Slice);
    }
    let length = usize::from(two_bytes(slice, 0));
    if length < HEADER || length > slice.len() {
        return Err(Refusal::Slice);
    }
    Ok(length)
}

/// What the layout gives, held neither to the bounds nor to what follows.
pub(crate) fn parse(slice: &[u8]) -> Result<(Message, &[u8]), Refusal> {
    let bytes = &slice[..framed_length(slice)?];
    let length = bytes.len();
    let run = u32::from_le_bytes([bytes[4], bytes[5], bytes[6], bytes[7]]);
    let phase = bytes[8];
    // 01: "11 kind not 1 to 3"; then "12 length not that of the kind"
    let (body, entries) = match kind_of(bytes) {
        1 => {
            // 01: "kind 1: under 13, or not 13 + 3k for the k that stands there, k above 63 included"
            if length < SELECTION_LENGTH || length != SELECTION_LENGTH + ENTRY * usize::from(bytes[COUNT]) {
                return Err(Refusal::Length);
            }
            let body = Body::Selection { vote: plan::at(bytes, PLAN), stamp: bytes[STAMP], k: bytes[COUNT] };
            (body, &bytes[SELECTION_LENGTH..])
        }
        2 => {
            if length != VALIDATION_LENGTH {
                return Err(Refusal::Length);
            }
            (Body::Validation { plan: plan::at(bytes, PLAN) }, &bytes[length..])
        }
        3 => {
            if length != DECISION_LENGTH {
                return Err(Refusal::Length);
            }
            (Body::Decision { vote: plan::at(bytes, PLAN), stamp: bytes[STAMP] }, &bytes[length..])
        }
        _ => return Err(Refusal::Kind),
    };
    Ok((Message { run, phase, body }, entries))
}

fn kind_of(bytes: &[u8]) -> u16 {
    two_bytes(bytes, 2)
}

/// 01: "byte order is little-endian"
fn two_bytes(bytes: &[u8], at: usize) -> u16 {
    u16::from_le_bytes([bytes[at], bytes[at + 1]])
}

/// 01: "Fields within the bounds have one encoding, this layout." Writes the message with these entry bytes to the
/// buffer's front and gives its length. The paper names no refusals for writing given fields: here fields outside the
/// bounds are 13, then a buffer shorter than the message is 9.
pub fn encode(message: &Message, entries: &[u8], buffer: &mut [u8]) -> Result<usize, Refusal> {
    if !message.is_within_bounds(entries) {
        return Err(Refusal::Bound);
    }
    match message.body {
        Body::Selection { vote, stamp, .. } => put_selection(message.run, message.phase, vote, stamp, entries, buffer),
        Body::Validation { plan } => put_validation(message.run, message.phase, plan, buffer),
        Body::Decision { vote, stamp } => put_decision(message.run, message.phase, vote, stamp, buffer),
    }
}

/// 01: "kind 1, selection: vote (2), stamp (1), k (1), k entries of phase (1) and plan (2); length 13 + 3k"
pub(crate) fn put_selection(
    run: u32,
    phase: u8,
    vote: Plan,
    stamp: u8,
    entries: &[u8],
    buffer: &mut [u8],
) -> Result<usize, Refusal> {
    let part = front(buffer, SELECTION_LENGTH + entries.len())?;
    put_header(part, 1, run, phase);
    plan::put(part, PLAN, vote);
    part[STAMP] = stamp;
    part[COUNT] = (entries.len() / ENTRY) as u8;
    part[SELECTION_LENGTH..].copy_from_slice(entries);
    Ok(part.len())
}

/// 01: "kind 2, validation: plan (2); length 11"
pub(crate) fn put_validation(run: u32, phase: u8, plan: Plan, buffer: &mut [u8]) -> Result<usize, Refusal> {
    let part = front(buffer, VALIDATION_LENGTH)?;
    put_header(part, 2, run, phase);
    plan::put(part, PLAN, plan);
    Ok(part.len())
}

/// 01: "kind 3, decision: vote (2), stamp (1); length 12"
pub(crate) fn put_decision(run: u32, phase: u8, vote: Plan, stamp: u8, buffer: &mut [u8]) -> Result<usize, Refusal> {
    let part = front(buffer, DECISION_LENGTH)?;
    put_header(part, 3, run, phase);
    plan::put(part, PLAN, vote);
    part[STAMP] = stamp;
    Ok(part.len())
}

/// 01: "9 buffer shorter than the message. Bytes after a written message keep their values."
fn front(buffer: &mut [u8], length: usize) -> Result<&mut [u8], Refusal> {
    buffer.get_mut(..length).ok_or(Refusal::ShortBuffer)
}

/// The header, with the part's length as the message's.
fn put_header(part: &mut [u8], kind: u16, run: u32, phase: u8) {
    let length = part.len() as u16;
    part[..2].copy_from_slice(&length.to_le_bytes());
    part[2..4].copy_from_slice(&kind.to_le_bytes());
    part[4..8].copy_from_slice(&run.to_le_bytes());
    part[8] = phase;
}
