//! The benchmark: one frame is read so many times through the given `deserialize_any`, either recorded as document 01's events
//! into a list that is used again, or ignored.
//!
//! The type is parsed once, before the calls: the given reader takes it as a tree, and the parser here is a stand-in.
//! The answer is `REFUSAL USED EVENTS LEAVES SUM NANOSECONDS` of the last call, and of all calls the time.
//! Leaves are numbers, texts and nothings; the sum is that of all payloads; - stands for what ignoring can't know.

use crate::{
    gvariant::Deserializer,
    lines::{self, Understood},
    record::{self, Event},
    serialized::{Context, Format},
    Endian, Result, Signature,
};
use serde::{de::IgnoredAny, Deserialize};
use std::{hint::black_box, os::fd::OwnedFd, time::Instant};

pub(crate) fn answer(mode: &str, signature: &str, file: &str, calls: &str) -> Understood<String> {
    let signature = Signature::from_bytes(signature.as_bytes()).map_err(|_| format!("no type: {signature}"))?;
    let frame = std::fs::read(file).map_err(|e| format!("{file}: {e}"))?;
    let calls = lines::number(calls.as_bytes())?;
    match mode {
        "record" => Ok(record_all(&signature, &frame, calls)),
        "ignore" => Ok(ignore_all(&signature, &frame, calls)),
        _ => Err("the benchmark's mode is record or ignore".to_string()),
    }
}

fn record_all(signature: &Signature, frame: &[u8], calls: u64) -> String {
    let mut events = Vec::new();
    let mut outcome = Ok(0);
    let start = Instant::now();
    for _ in 0..calls {
        events.clear();
        outcome = record::read(black_box(signature), Endian::Little, 0, black_box(frame), &mut events);
        black_box(&events);
    }
    let time = start.elapsed().as_nanos();
    let sum = events.iter().fold(0u64, |sum, event| sum.wrapping_add(event.2));
    format!("{} {} {} {sum} {time}", words(outcome), events.len(), leaves(&events))
}

/// The type of a variant is no leaf.
fn leaves(events: &[Event]) -> usize {
    let count = |kinds: &[u8]| events.iter().filter(|event| kinds.contains(&event.0)).count();
    count(b"bynqiuxtdsogN") - count(b"v")
}

fn ignore_all(signature: &Signature, frame: &[u8], calls: u64) -> String {
    let mut outcome = Ok(0);
    let start = Instant::now();
    for _ in 0..calls {
        outcome = black_box(ignore(black_box(signature), black_box(frame)));
    }
    let time = start.elapsed().as_nanos();
    format!("{} - - - {time}", words(outcome))
}

/// The bytes used. The given `deserialize_ignored_any` is `deserialize_any`.
fn ignore(signature: &Signature, frame: &[u8]) -> Result<u64> {
    let context = Context::new(Format::GVariant, Endian::Little, 0);
    let mut reader = Deserializer::<OwnedFd>::new(frame, None, signature, context)?;
    IgnoredAny::deserialize(&mut reader)?;
    Ok(reader.0.pos as u64)
}

fn words(outcome: Result<u64>) -> String {
    match outcome {
        Ok(used) => format!("0 {used}"),
        Err(fault) => format!("{} 0", fault.refusal().unwrap_or(99)),
    }
}
