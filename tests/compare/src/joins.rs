//! The archive's join held to the evaluator's, with all memory that it was lent, and to Paper 7 of document 02.
use crate::calls::{byte_pattern, same, same_memory, Difference, Met};
use crate::properties::joined_differs;
use evaluator::join::{self, Told};
use evaluator::two_files::Join;
use relcalc::c::{self, Joined};

/// Enough for every result that is generated, also where it is over 32,768 bytes.
const ROOM: usize = 50_000;
/// Bytes behind the lent output.
const BEHIND: usize = 64;

/// What the call says, and what it writes.
fn due(answer: Result<Vec<u8>, Told>) -> (Joined, Vec<u8>) {
    match answer {
        Ok(result) => (Joined { length: result.len() as u64, ..Joined::default() }, result),
        Err(((row, place), text)) => (Joined { refusal: row as u64, place: place as u64, text: text as u64, length: 0 }, Vec::new()),
    }
}

/// The rooms of a call: what it asks for, none, enough and, where the texts are accepted, those about the length needed.
fn rooms(call: &Join, whole: &Result<Vec<u8>, Told>) -> Vec<usize> {
    let needed = whole.as_ref().map_or(0, Vec::len);
    let mut found = vec![call.room, 0, needed.saturating_sub(1), needed, needed + 1, ROOM];
    found.sort();
    found.dedup();
    found
}

/// One call, its texts lent as copies.
fn one_differs(call: &Join, whole: &Result<Vec<u8>, Told>, room: usize) -> Difference {
    let (first, second) = (call.first.clone(), call.second.clone());
    let mut output = byte_pattern(room + BEHIND);
    let mut want_output = output.clone();
    let (want, written) = due(whole.clone().and_then(|result| join::lent(result, room)));
    want_output[..written.len()].copy_from_slice(&written);
    let found = c::join(&first, &second, &mut output[..room]);
    let lent = format!("join with {room} bytes");
    same(&lent, found, want)?;
    same_memory(&format!("{lent}: byte"), &output, &want_output)?;
    same_memory(&format!("{lent}: byte of the first text"), &first, &call.first)?;
    same_memory(&format!("{lent}: byte of the second text"), &second, &call.second)
}

pub fn join_differs(call: &Join, met: &mut Met) -> Difference {
    let whole = join::whole(&call.first, &call.second);
    rooms(call, &whole).into_iter().try_for_each(|room| one_differs(call, &whole, room))?;
    if whole.is_ok_and(|result| result.len() > call.room) {
        joined_differs(call, call.room, met)?;
    }
    joined_differs(call, ROOM, met)
}
