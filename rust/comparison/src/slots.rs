//! What counts in the slots of an inbox, by whose turn it is too (02, C-13), and the premise on slots of demand 3.

use crate::cases::expect;
use generators::runs::Setup;
use generators::turns;
use second_engine::inbox::SLOT;
use second_engine::{message, Crew, Message};

/// A counting slot: its message, and the bytes of that message, which are its one encoding.
#[derive(Clone, Copy, Debug)]
pub struct Slot<'a> {
    pub bytes: &'a [u8],
    pub message: Message,
}

/// For each slot of an inbox what counts in it, in this round of the phase.
pub fn counting_slots(crew: Crew, run: u32, phase: u8, number: u8, inbox: &[u8]) -> Vec<Option<Slot<'_>>> {
    let counting = |from: usize, bytes: &'_ [u8]| {
        let message = message::read(bytes).ok()?;
        let is_coming = message.run == run && message.phase == phase && message.kind() == number;
        (is_coming && turns::may_count(crew, phase, number, from)).then_some(message)
    };
    let slot_of =
        |(from, bytes)| counting(from, bytes).map(|message| Slot { bytes: &bytes[..message.length()], message });
    inbox.chunks_exact(SLOT).enumerate().map(slot_of).collect()
}

/// Whether a slot of the inbox holds these bytes.
/// 01: "a slot holds what a node wrote if there are such bytes and they stand at its front"
pub fn is_holding(inbox: &[u8], from: usize, bytes: &[u8]) -> bool {
    inbox[SLOT * from..SLOT * (from + 1)].starts_with(bytes)
}

/// The premise on slots, for one inbox that was taken: every honest slot that counts in it holds what its node wrote,
/// which the last argument tells by number. This checks the generator, not the engine.
pub fn check_premise(
    setup: &Setup,
    counting: &[Option<Slot>],
    is_written: impl Fn(usize) -> bool,
) -> Result<(), String> {
    for (from, slot) in counting.iter().enumerate() {
        let is_asked = setup.is_honest[from] && slot.is_some();
        expect(!is_asked || is_written(from), || format!("slot {from} breaks the premise"))?;
    }
    Ok(())
}
