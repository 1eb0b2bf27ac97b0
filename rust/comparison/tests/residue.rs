//! Residue (02, C-12) on generated messages and inboxes, and that it comes up everywhere in them.

use comparison::seeds::seeds;
use generators::{inboxes, messages, Random};
use second_engine::inbox::SLOT;
use second_engine::message::{self, HEADER};
use second_engine::{rounds, Refusal};
use std::collections::BTreeSet;

/// Cuts the slice after the length that stands at its front, and not before the header's end; none where the slice has
/// no such place.
fn cut(slice: &[u8]) -> Option<(&[u8], &[u8])> {
    let length = usize::from(u16::from_le_bytes([*slice.first()?, *slice.get(1)?]));
    slice.split_at_checked(length.max(HEADER))
}

/// 02: "It refuses with 16 a read with a non-zero byte after the length, tested after 13." Zeros behind a message
/// change no answer. Residue makes 16 of a message that is read alone, and leaves every other number.
#[test]
fn residue_is_looked_at_last() {
    let mut answers = BTreeSet::new();
    for seed in seeds("residue_is_looked_at_last", 20_000) {
        let random = &mut Random::new(seed);
        let slice = messages::any(random);
        let Some((front, _)) = cut(&slice) else { continue };
        let alone = message::read(front);
        let mut padded = front.to_vec();
        padded.resize(front.len() + random.below(2 * SLOT), 0);
        assert_eq!(message::read(&padded), alone, "seed {seed}");
        assert_eq!(message::entries(&padded), message::entries(front), "seed {seed}");
        let spoiled = messages::with_residue(random, front.to_vec());
        assert_eq!(message::read(&spoiled), alone.and(Err(Refusal::Residue)), "seed {seed}: {spoiled:?}");
        assert!(message::entries(&spoiled).is_empty(), "seed {seed}");
        answers.insert(alone.map_or_else(Refusal::number, |read| read.kind()));
    }
    // The kinds of those that are read, and the numbers of the others.
    assert!(answers.into_iter().eq((1..=3).chain(10..=13)));
}

/// Two slices of one length that are read to one message are equal: no byte of a slice that is read can be another.
#[test]
fn every_byte_of_what_is_read_matters() {
    for seed in seeds("every_byte_of_what_is_read_matters", 500) {
        let random = &mut Random::new(seed);
        let slice = messages::valid(random);
        let answer = (message::read(&slice), message::entries(&slice));
        assert!(answer.0.is_ok(), "seed {seed}");
        for place in 0..slice.len() {
            let mut other = slice.clone();
            other[place] ^= random.between(1, 255) as u8;
            assert_ne!((message::read(&other), message::entries(&other)), answer, "seed {seed}, byte {place}");
        }
    }
}

/// Where the bytes that are not zero stand, if there are any and it can be told.
fn place_of(rest: &[u8]) -> Option<&'static str> {
    let places: Vec<usize> = (0..rest.len()).filter(|&place| rest[place] != 0).collect();
    match places[..] {
        [] => None,
        [_] if rest.len() == 1 => Some("the only byte"),
        [0] => Some("the first byte"),
        [place] if place + 1 == rest.len() => Some("the last byte"),
        [_] => Some("one byte between"),
        _ => Some("several bytes"),
    }
}

/// Behind all three kinds and behind what is refused with 10 to 13, residue comes up at every place.
#[test]
fn residue_comes_up_everywhere() {
    let mut found = BTreeSet::new();
    for seed in seeds("residue_comes_up_everywhere", 40_000) {
        let slice = messages::any(&mut Random::new(seed));
        let Some((front, rest)) = cut(&slice) else { continue };
        let behind = message::read(front).map_or_else(Refusal::number, |read| read.kind());
        found.extend(place_of(rest).map(|place| (behind, place)));
    }
    let places = ["one byte between", "several bytes", "the first byte", "the last byte", "the only byte"];
    let behind = (1..=3).chain(10..=13);
    assert!(found.into_iter().eq(behind.flat_map(|behind| places.map(|place| (behind, place)))));
}

/// 02: "Such a slot is absent". With residue behind some messages an inbox gives the answers that it gives with their
/// slots cleared.
#[test]
fn a_slot_with_residue_is_absent() {
    let (mut spoiled_rounds, mut changed) = (BTreeSet::new(), 0);
    for seed in seeds("a_slot_with_residue_is_absent", 10_000) {
        let random = &mut Random::new(seed);
        let Some((node, inbox)) = inboxes::unspent_case(random) else { continue };
        let (mut spoiled, mut cleared) = (inbox.clone(), inbox.clone());
        for (place, slot) in inbox.chunks_exact(SLOT).enumerate() {
            let Ok(read) = message::read(slot) else { continue };
            if random.chance(1, 3) {
                let place = SLOT * place..SLOT * (place + 1);
                let bytes = messages::with_residue_in_slot(random, slot[..read.length()].to_vec());
                spoiled[place.clone()].copy_from_slice(&bytes);
                cleared[place].fill(0);
            }
        }
        let taken = |inbox: &[u8]| {
            let mut after = node;
            (rounds::ask(&node, inbox), rounds::take(&mut after, inbox), after)
        };
        assert_eq!(taken(&spoiled), taken(&cleared), "seed {seed}");
        if taken(&spoiled) != taken(&inbox) {
            changed += 1;
            spoiled_rounds.insert((node.crew.class, node.round));
        }
    }
    println!("residue changed the answers of {changed} inboxes");
    // Rounds 1 and 3 in class 1, all three in the others.
    assert_eq!(spoiled_rounds.len(), 8);
}
