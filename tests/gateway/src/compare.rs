//! What the model wants of a call, and what the library made of it.

use gateway::ffi::State;
use gateway::states::{differences, raw_of, remembered_of, state_of};
use model::card::{Answer as Told, Refusal, FOREIGN, MEMORY};
use model::foreign::foreign;
use model::machine::Machine;

use crate::calls::{Call, Got};
use crate::lent::{Lent, MARGIN};

/// What is wanted of a call: the answer, the reply's length, the state, and the bytes of all that was lent.
pub struct Wanted {
    pub told: Told,
    pub length: usize,
    pub state: State,
    pub lent: Lent,
}

impl Wanted {
    /// The reply of a poll; none where there is none, and of any other call.
    pub fn reply(&self) -> &[u8] {
        &self.lent.reply.lent()[..self.length]
    }
}

/// A call on a machine that the list goes on with, lent its archive or bytes of another length.
pub fn wanted_of_machine(machine: &mut Machine, s: &State, call: &Call, lent: &Lent) -> Wanted {
    let mut lent = lent.clone();
    let (told, length) = call.on_model(machine, lent.archive.len(), &mut lent.reply);
    if told.is_done() && matches!(call, Call::Start | Call::Scan { .. }) {
        lent.archive = machine.archive_memory();
    }
    Wanted { told, length, state: state_of(&machine.raw_state(), machine.remembered(), s), lent }
}

/// A call on a state of which nothing is known: rows 1 and 2 of the card, else the machine that stands so.
pub fn wanted_of_state(s: &State, call: &Call, lent: &Lent) -> Wanted {
    let raw = raw_of(s);
    let refused = |number| Wanted { told: Err(Refusal::plain(number)).into(), length: 0, state: *s, lent: lent.clone() };
    if lent.archive.len() != raw.archive_len as usize {
        refused(MEMORY)
    } else if foreign(&raw) {
        refused(FOREIGN)
    } else {
        wanted_of_machine(&mut Machine::standing(&raw, remembered_of(s), &lent.archive), s, call, lent)
    }
}

/// Hands a call to the library: what it answers and leaves is as wanted, what it was lent only to read is as it was, and so is all
/// else where the call is refused; else what differs.
pub fn agree(wanted: &Wanted, s: &State, call: &Call, lent: &Lent) -> Result<(), String> {
    let (mut handed_in, mut left) = (call.clone(), lent.clone());
    let got = handed_in.on_library(*s, &mut left);
    only_read(call, &handed_in)?;
    compare(wanted, &got, &left)?;
    if got.number != 0 && (got.state != *s || left != *lent) {
        return Err(format!("refused with {}, and yet the state or what was lent was changed, on both sides", got.number));
    }
    Ok(())
}

/// What a call was lent only to read, as the live table, is as it was.
pub fn only_read(call: &Call, handed_in: &Call) -> Result<(), String> {
    if handed_in == call {
        Ok(())
    } else {
        Err(format!("what is only read was changed, to {handed_in:?}"))
    }
}

/// The answer, the state and the bytes are those wanted; else what differs.
pub fn compare(wanted: &Wanted, got: &Got, left: &Lent) -> Result<(), String> {
    compare_answer(&wanted.told, wanted.length, &wanted.state, got).map_err(|text| {
        let begins = left.reply.lent().iter().take(8).collect::<Vec<_>>();
        format!("{text}\nreply wanted {:02x?}, got {begins:02x?}", wanted.reply())
    })?;
    let number = got.number;
    if let Some(text) = first_difference(left.reply.with_margins(), wanted.lent.reply.with_margins()) {
        return Err(format!("answer {number} and state as wanted; from {MARGIN} bytes before the reply buffer on, {text}"));
    }
    match first_difference(&left.archive, &wanted.lent.archive) {
        Some(text) => Err(format!("answer {number} and state as wanted; archive: {text}")),
        None => Ok(()),
    }
}

/// The number with what it carries, the reply's length and the state are those wanted; else what differs.
pub fn compare_answer(told: &Told, length: usize, state: &State, got: &Got) -> Result<(), String> {
    let wanted = (u32::from(told.number), u32::from(told.carried), length as u32);
    if (got.number, got.carried, got.length) != wanted {
        let (number, carried, length) = wanted;
        return Err(format!(
            "wanted {number} carrying {carried} and a reply of {length} bytes, got {} carrying {} and {} bytes",
            got.number, got.carried, got.length
        ));
    }
    if got.state != *state {
        return Err(format!("answer {} as wanted; the state differs:{}", got.number, differences(state, &got.state)));
    }
    Ok(())
}

/// The first byte in which bytes of the same number differ.
fn first_difference(got: &[u8], wanted: &[u8]) -> Option<String> {
    if got == wanted {
        return None;
    }
    let at = got.iter().zip(wanted).position(|(a, b)| a != b)?;
    Some(format!("byte {at} is {} and should be {}", got[at], wanted[at]))
}
