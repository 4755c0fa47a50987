//! Whole frames: a line `TYPE l|b POSITION HEX` is read by the given reader and answered by
//! `REFUSAL USED NEVENTS kind:place:payload ...`, or by `REFUSAL MET`: how many events were met, also before a refusal.

use crate::{
    lines::{self, push_number, Understood},
    record::{self, Event},
    Endian, Signature,
};
use std::panic::{catch_unwind, AssertUnwindSafe};

const LIMIT: u64 = 65_536;

/// What came of a reading.
enum Outcome {
    Read(u64),
    Refused(u64),
    Panicked,
}

pub(crate) fn answer(words: &[&[u8]], text: &mut Vec<u8>) -> Understood<()> {
    let mut events = Vec::new();
    match outcome_of(words, &mut events)? {
        Outcome::Read(used) => print_reading(text, used, &events),
        Outcome::Refused(refusal) => {
            push_number(text, refusal);
            text.extend_from_slice(b" 0 0");
        }
        Outcome::Panicked => text.extend_from_slice(b"PANIC"),
    }
    Ok(())
}

pub(crate) fn met(words: &[&[u8]], text: &mut Vec<u8>) -> Understood<()> {
    let mut events = Vec::new();
    match outcome_of(words, &mut events)? {
        Outcome::Read(_) => push_number(text, 0),
        Outcome::Refused(refusal) => push_number(text, refusal),
        Outcome::Panicked => text.extend_from_slice(b"PANIC"),
    }
    text.push(b' ');
    push_number(text, events.len() as u64);
    Ok(())
}

fn outcome_of(words: &[&[u8]], events: &mut Vec<Event>) -> Understood<Outcome> {
    let &[signature, order, position, bytes] = words else {
        return Err("a frame is TYPE l|b POSITION HEX".to_string());
    };
    outcome(signature, lines::byte_order(order)?, lines::number(position)?, &lines::bytes(bytes)?, events)
}

/// Document 01's order: the type, the limits, then the reading.
fn outcome(
    signature: &[u8],
    order: Endian,
    position: u64,
    frame: &[u8],
    events: &mut Vec<Event>,
) -> Understood<Outcome> {
    let Ok(signature) = Signature::from_bytes(signature) else {
        return Ok(Outcome::Refused(1));
    };
    if frame.len() as u64 > LIMIT || position > LIMIT {
        return Ok(Outcome::Refused(2));
    }
    let reading = AssertUnwindSafe(|| record::read(&signature, order, position as usize, frame, events));
    match catch_unwind(reading) {
        Err(_) => Ok(Outcome::Panicked),
        Ok(Ok(used)) => Ok(Outcome::Read(used)),
        Ok(Err(fault)) => match fault.refusal() {
            Some(refusal) => Ok(Outcome::Refused(refusal)),
            None => Err(format!("a fault without a number: {fault}")),
        },
    }
}

fn print_reading(text: &mut Vec<u8>, used: u64, events: &[Event]) {
    text.extend_from_slice(b"0 ");
    push_number(text, used);
    text.push(b' ');
    push_number(text, events.len() as u64);
    for &(kind, place, payload) in events {
        text.push(b' ');
        push_number(text, kind.into());
        text.push(b':');
        push_number(text, place);
        text.push(b':');
        push_number(text, payload);
    }
}
