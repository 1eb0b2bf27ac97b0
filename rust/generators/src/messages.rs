//! Messages as bytes: within the bounds, damaged, truncated, with zeros or residue behind them.

use crate::plans;
use crate::random::Random;
use second_engine::inbox::SLOT;
use second_engine::message::{DECISION_LENGTH, ENTRY, HEADER, LAST_PHASE, MOST_ENTRIES, SELECTION_LENGTH};
use second_engine::Plan;

/// The fields of a message. Nothing keeps them within the bounds; k stands on its own, to be wrong where asked.
#[derive(Clone, Debug, PartialEq, Eq)]
pub struct Fields {
    pub kind: u16,
    pub run: u32,
    pub phase: u8,
    pub plan: Plan,
    pub stamp: u8,
    pub k: u8,
    pub entries: Vec<(u8, Plan)>,
}

impl Fields {
    /// The layout of the kind; a kind that is none of the three gets a header and plan.
    pub fn layout(&self) -> Vec<u8> {
        let mut bytes = vec![0, 0];
        bytes.extend_from_slice(&self.kind.to_le_bytes());
        bytes.extend_from_slice(&self.run.to_le_bytes());
        bytes.push(self.phase);
        bytes.extend_from_slice(&self.plan.to_le_bytes());
        if self.kind == 1 || self.kind == 3 {
            bytes.push(self.stamp);
        }
        if self.kind == 1 {
            bytes.push(self.k);
            for &(phase, plan) in &self.entries {
                bytes.push(phase);
                bytes.extend_from_slice(&plan.to_le_bytes());
            }
        }
        set_length(&mut bytes);
        bytes
    }
}

/// Puts the number of bytes where the length stands.
pub fn set_length(bytes: &mut [u8]) {
    put_length(bytes, bytes.len());
}

/// Puts this number where the length stands.
pub fn put_length(bytes: &mut [u8], length: usize) {
    bytes[..2].copy_from_slice(&(length as u16).to_le_bytes());
}

/// Fields within the bounds, of this kind, run and phase.
pub fn within(random: &mut Random, kind: u16, run: u32, phase: u8, pool: &[Plan]) -> Fields {
    let highest = if kind == 1 { phase - 1 } else { phase };
    let any_stamp = random.between(0, usize::from(highest)) as u8;
    let stamp = random.pick(&[0, highest, any_stamp]);
    let mut fields = Fields { kind, run, phase, plan: random.pick(pool), stamp, k: 0, entries: Vec::new() };
    if kind == 1 {
        fields.entries = entries(random, phase, pool);
        fields.k = fields.entries.len() as u8;
    }
    fields
}

/// Entries within the bounds: none, all, or some of the earlier phases.
fn entries(random: &mut Random, phase: u8, pool: &[Plan]) -> Vec<(u8, Plan)> {
    let part = random.pick(&[0, 1, 4, 7, 8]);
    let mut entries = Vec::new();
    for earlier in 0..phase {
        if random.chance(part, 8) {
            entries.push((earlier, random.pick(pool)));
        }
    }
    entries
}

/// Any fields within the bounds.
pub fn any_within(random: &mut Random) -> Fields {
    let pool = plans::pool(random);
    let kind = random.between(1, 3) as u16;
    let (any_phase, any_run) = (random.between(1, usize::from(LAST_PHASE)) as u8, random.number() as u32);
    let phase = random.pick(&[1, 2, LAST_PHASE - 1, LAST_PHASE, any_phase]);
    let run = random.pick(&[0, 1, u32::MAX, any_run]);
    within(random, kind, run, phase, &pool)
}

/// A message within the bounds, often with zeros after it.
pub fn valid(random: &mut Random) -> Vec<u8> {
    let mut bytes = any_within(random).layout();
    if random.chance(1, 2) {
        let room = room(random, bytes.len());
        bytes.resize(bytes.len() + room, 0);
    }
    bytes
}

/// How many bytes there are behind a message of this length: few, as many as fill a slot, or more.
fn room(random: &mut Random, length: usize) -> usize {
    let few = random.between(1, 40);
    let rest = SLOT.saturating_sub(length).max(1);
    random.pick(&[1, few, rest, rest + few])
}

/// The bytes of a message with residue behind them.
pub fn with_residue(random: &mut Random, mut bytes: Vec<u8>) -> Vec<u8> {
    let length = bytes.len();
    let room = room(random, length);
    bytes.resize(length + room, 0);
    put_residue(random, &mut bytes, length);
    bytes
}

/// The bytes of a message with residue behind them, as they lie in a slot. Where they leave no room for any, or there
/// are none, the slot is one whose header was cleared.
pub fn with_residue_in_slot(random: &mut Random, mut bytes: Vec<u8>) -> Vec<u8> {
    if bytes.len() >= SLOT {
        bytes.clear();
    }
    let length = bytes.len().max(HEADER);
    bytes.resize(SLOT, 0);
    put_residue(random, &mut bytes, length);
    bytes
}

/// Puts residue behind a message of this length, where the slice has at least one byte, and only zeros: a byte at the
/// front, in the middle or at the end, several, random ones, or what a port driver leaves.
fn put_residue(random: &mut Random, slice: &mut [u8], length: usize) {
    let rest = &mut slice[length..];
    let (any_place, last) = (random.below(rest.len()), rest.len() - 1);
    match random.below(8) {
        0 => rest[0] = not_zero(random),
        1 => rest[any_place] = not_zero(random),
        2 => rest[last] = not_zero(random),
        3 => (0..random.between(2, 8)).for_each(|_| rest[random.below(last + 1)] = random.byte()),
        4 => rest.fill_with(|| random.byte()),
        _ => {
            let older = longer_than(random, length);
            rest.iter_mut().zip(older.into_iter().skip(length)).for_each(|(byte, old)| *byte = old);
        }
    }
    // What was drawn or left there may be zero throughout.
    if rest.iter().all(|&byte| byte == 0) {
        rest[any_place] = not_zero(random);
    }
}

fn not_zero(random: &mut Random) -> u8 {
    let any_byte = random.between(1, 255) as u8;
    random.pick(&[1, 128, 255, any_byte])
}

/// An older message of more bytes than these, if a message can have more: a selection that lists every phase before its
/// own. A short message is laid over its front.
fn longer_than(random: &mut Random, length: usize) -> Vec<u8> {
    let entries = length.saturating_sub(SELECTION_LENGTH) / ENTRY + 1;
    let phase = random.between(entries.min(usize::from(MOST_ENTRIES)), usize::from(LAST_PHASE)) as u8;
    let (pool, run) = (plans::pool(random), random.number() as u32);
    let mut fields = within(random, 1, run, phase, &pool);
    fields.entries = (0..phase).map(|earlier| (earlier, random.pick(&pool))).collect();
    fields.k = phase;
    fields.layout()
}

/// A message with one field, length or byte changed.
pub fn damaged(random: &mut Random) -> Vec<u8> {
    let mut fields = any_within(random);
    match random.below(12) {
        0 => fields.kind = random.pick(&[0, 4, 256, 257, 513, u16::MAX]),
        1 => fields.phase = random.pick(&[0, LAST_PHASE + 1, LAST_PHASE + 2, 255]),
        2 => fields.plan = 0,
        3 => fields.stamp = random.pick(&[fields.phase, fields.phase + 1, LAST_PHASE, LAST_PHASE + 1, 255]),
        4 => fields.k = random.pick(&[fields.k.wrapping_add(1), fields.k.wrapping_sub(1), MOST_ENTRIES + 1, 255]),
        5 => damage_entries(random, &mut fields),
        6 => lengthen_entries(random, &mut fields),
        _ => return damage_bytes(random, fields.layout()),
    }
    fields.layout()
}

/// Breaks a bound of the entries: a plan 0, a phase repeated, out of order or too high.
pub fn damage_entries(random: &mut Random, fields: &mut Fields) {
    if fields.entries.is_empty() {
        fields.kind = 1;
        fields.stamp = 0;
        fields.entries.push((0, 1));
    }
    let place = random.below(fields.entries.len());
    match random.below(4) {
        0 => fields.entries[place].1 = 0,
        1 => fields.entries[place].0 = random.pick(&[fields.phase, fields.phase + 1, LAST_PHASE, LAST_PHASE + 1, 255]),
        2 => fields.entries.insert(place, fields.entries[place]),
        _ => fields.entries.reverse(),
    }
    fields.k = fields.entries.len() as u8;
}

/// A selection with about as many entries as there may be, or with 255, and with k as it is: above the most it is 13
/// and never 12.
fn lengthen_entries(random: &mut Random, fields: &mut Fields) {
    let count =
        random.pick(&[MOST_ENTRIES - 1, MOST_ENTRIES, MOST_ENTRIES + 1, MOST_ENTRIES + 2, MOST_ENTRIES + 7, 255]);
    fields.kind = 1;
    fields.phase = LAST_PHASE;
    fields.stamp = 0;
    fields.entries = (0..count).map(|phase| (phase, 7)).collect();
    fields.k = count;
}

fn damage_bytes(random: &mut Random, mut bytes: Vec<u8>) -> Vec<u8> {
    let place = random.below(bytes.len());
    match random.below(5) {
        0 => bytes[place] ^= 1 << random.below(8),
        1 => bytes[place] = random.byte(),
        // The length field alone is wrong: by one, very small or large.
        2 => {
            let length = bytes.len();
            let wrong = random.pick(&[
                0,
                HEADER - 1,
                HEADER,
                HEADER + 1,
                DECISION_LENGTH,
                SELECTION_LENGTH,
                length - 1,
                length + 1,
                SLOT,
                SLOT + 1,
                usize::from(u16::MAX),
            ]);
            put_length(&mut bytes, wrong);
            let tail = random.below(8);
            bytes.extend(random.bytes(tail));
        }
        // Cut short or made longer, with the length to match.
        3 => {
            bytes.truncate(place.max(2));
            set_length(&mut bytes);
        }
        _ => {
            let tail = random.between(1, 4);
            bytes.extend(random.bytes(tail));
            set_length(&mut bytes);
        }
    }
    bytes
}

/// A message with bytes missing at its end.
pub fn truncated(random: &mut Random) -> Vec<u8> {
    let mut bytes = any_within(random).layout();
    bytes.truncate(random.below(bytes.len()));
    bytes
}

/// Any slice: valid, with residue, damaged, damaged and with residue, truncated, or random bytes.
pub fn any(random: &mut Random) -> Vec<u8> {
    match random.below(12) {
        0..=2 => valid(random),
        3 | 4 => {
            let bytes = any_within(random).layout();
            with_residue(random, bytes)
        }
        5..=7 => damaged(random),
        8 | 9 => {
            let bytes = damaged(random);
            with_residue(random, bytes)
        }
        10 => truncated(random),
        _ => {
            let count = random.below(SLOT + 18);
            random.bytes(count)
        }
    }
}
