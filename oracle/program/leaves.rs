//! The leaves: one call of a given function for each line. README.md has the format of every line and answer.
//! Where the Rust panics, the answer is what document 01 and the open points say of that case.

use crate::{
    container_depths::{self, ContainerDepths},
    de::DeserializerCommon,
    framing_offset_size::{self, FramingOffsetSize},
    framing_offsets::FramingOffsets,
    lines::{self, hexadecimal, number, Understood},
    record,
    serialized::{Context, Format},
    utils, Endian, Error, Result, Signature,
};
use std::{
    os::fd::OwnedFd,
    panic::{catch_unwind, AssertUnwindSafe},
};

pub(crate) fn answer(words: &[&[u8]], text: &mut Vec<u8>) -> Understood<()> {
    let answer = match words {
        [b"padding_for_n_bytes", value, align] => padding_for_n_bytes(number(value)?, number(align)?),
        [b"for_bare_container", length, count] => for_bare_container(number(length)?, number(count)?),
        [b"for_encoded_container", length] => for_encoded_container(number(length)?),
        [b"max", size] => format!("0 {}", framing_offset_size::inside::max(width(size)?)),
        [b"bump_up", size] => bump_up(width(size)?),
        [b"write_offset", size, offset, buffer] => {
            write_offset(width(size)?, number(offset)?, &lines::bytes(buffer)?)
        }
        [b"read_last_offset_from_buffer", size, buffer] => {
            read_last_offset_from_buffer(width(size)?, &lines::bytes(buffer)?)
        }
        [name, structure, array, variant, maybe] if is_depth_leaf(name) => {
            depth(name, [counter(structure)?, counter(array)?, counter(variant)?, counter(maybe)?])
        }
        [b"from_encoded_array", container] => from_encoded_array(&lines::bytes(container)?),
        [b"parse_padding", position, place, align, bytes] => {
            parse_padding(number(position)?, number(place)?, number(align)?, &lines::bytes(bytes)?)
        }
        [b"next_slice", place, length, bytes] => {
            next_slice(number(place)?, number(length)?, &lines::bytes(bytes)?)
        }
        [b"number", letter, order, bytes] => {
            one_value(numeral(letter)?, lines::byte_order(order)?, &lines::bytes(bytes)?)
        }
        [b"bool", bytes] => one_value(&Signature::Bool, Endian::Little, &lines::bytes(bytes)?),
        [b"text", bytes] => one_value(&Signature::Str, Endian::Little, &lines::bytes(bytes)?),
        _ => return Err("no leaf of this name with so many words".to_string()),
    };
    text.extend_from_slice(answer.as_bytes());
    Ok(())
}

/// A call of the Rust: none if it panics.
fn call<T>(rust: impl FnOnce() -> T) -> Option<T> {
    catch_unwind(AssertUnwindSafe(rust)).ok()
}

fn refusal(fault: Error) -> u64 {
    fault.refusal().expect("a fault with a number")
}

fn width(word: &[u8]) -> Understood<FramingOffsetSize> {
    match word {
        b"1" => Ok(FramingOffsetSize::U8),
        b"2" => Ok(FramingOffsetSize::U16),
        b"4" => Ok(FramingOffsetSize::U32),
        b"8" => Ok(FramingOffsetSize::U64),
        _ => Err("a width is 1, 2, 4 or 8".to_string()),
    }
}

fn counter(word: &[u8]) -> Understood<u8> {
    number(word)?.try_into().map_err(|_| "a depth counter is at most 255".to_string())
}

fn numeral(letter: &[u8]) -> Understood<&'static Signature> {
    match letter {
        b"y" => Ok(&Signature::U8),
        b"n" => Ok(&Signature::I16),
        b"q" => Ok(&Signature::U16),
        b"i" => Ok(&Signature::I32),
        b"u" => Ok(&Signature::U32),
        b"x" => Ok(&Signature::I64),
        b"t" => Ok(&Signature::U64),
        b"d" => Ok(&Signature::F64),
        _ => Err("a number's letter is one of y n q i u x t d".to_string()),
    }
}

/// Document 01 knows these alignments only; the Rust takes every power of two and panics at the rest.
fn is_alignment(align: u64) -> bool {
    matches!(align, 1 | 2 | 4 | 8)
}

fn padding_for_n_bytes(value: u64, align: u64) -> String {
    if !is_alignment(align) {
        return "17 0".to_string();
    }
    format!("0 {}", utils::padding_for_n_bytes(value as usize, align as usize))
}

fn for_bare_container(length: u64, count: u64) -> String {
    match call(|| FramingOffsetSize::for_bare_container(length as usize, count as usize)) {
        Some(size) => format!("0 {}", size as usize),
        None => "2 0".to_string(),
    }
}

fn for_encoded_container(length: u64) -> String {
    format!("0 {}", FramingOffsetSize::for_encoded_container(length as usize) as usize)
}

fn bump_up(size: FramingOffsetSize) -> String {
    match framing_offset_size::inside::bump_up(size) {
        Some(next) => format!("0 {}", next as usize),
        None => "2 0".to_string(),
    }
}

/// The Rust's writer may have written a part when it fails; the answer shows the buffer as it was.
fn write_offset(size: FramingOffsetSize, offset: u64, buffer: &[u8]) -> String {
    let mut written = buffer.to_vec();
    match size.write_offset(&mut written.as_mut_slice(), offset as usize) {
        Ok(()) => format!("0 {}", hexadecimal(&written)),
        Err(_) => format!("13 {}", hexadecimal(buffer)),
    }
}

fn read_last_offset_from_buffer(size: FramingOffsetSize, buffer: &[u8]) -> String {
    match call(|| size.read_last_offset_from_buffer(buffer)) {
        Some(offset) => format!("0 {offset}"),
        None => "3 0".to_string(),
    }
}

fn is_depth_leaf(name: &[u8]) -> bool {
    let (step, counter) = name.split_at(name.len().min(4));
    matches!((step, counter), (b"inc_", b"structure" | b"array" | b"variant" | b"maybe"))
        || matches!((step, counter), (b"dec_", b"structure" | b"array" | b"maybe"))
}

fn depth(name: &[u8], counters: [u8; 4]) -> String {
    let record = container_depths::inside::record(counters);
    let changed = call(|| changed_record(name, record));
    let (refusal, after) = match changed {
        Some(Ok(after)) => (0, container_depths::inside::counters(after)),
        Some(Err(fault)) => (refusal(fault), counters),
        None => (refusal_of_exact_sums(name, counters), counters),
    };
    let [structure, array, variant, maybe] = after;
    format!("{refusal} {structure} {array} {variant} {maybe}")
}

fn changed_record(name: &[u8], record: ContainerDepths) -> Result<ContainerDepths> {
    match name {
        b"inc_structure" => record.inc_structure(),
        b"inc_array" => record.inc_array(),
        b"inc_variant" => record.inc_variant(),
        b"inc_maybe" => record.inc_maybe(),
        b"dec_structure" => Ok(record.dec_structure()),
        b"dec_array" => Ok(record.dec_array()),
        _ => Ok(record.dec_maybe()),
    }
}

/// Where the Rust's sum of eight bits panics: the exact sum is over every limit, so that a raise is refused by the first
/// counter over its own, else by the total. A lowered 0 stays 0.
fn refusal_of_exact_sums(name: &[u8], [structure, array, _, _]: [u8; 4]) -> u64 {
    let raised = |counter: u8, own: &[u8]| u64::from(counter) + u64::from(name == own);
    if name.starts_with(b"dec_") {
        0
    } else if raised(structure, b"inc_structure") > 32 {
        10
    } else if raised(array, b"inc_array") > 32 {
        11
    } else {
        12
    }
}

fn from_encoded_array(container: &[u8]) -> String {
    let (mut offsets, length) = match FramingOffsets::from_encoded_array(container) {
        Ok(table) => table,
        Err(fault) => return format!("{} 0 0 0", refusal(fault)),
    };
    let mut all = Vec::new();
    while let Some(offset) = offsets.pop() {
        all.push(format!(" {offset}"));
    }
    let width = FramingOffsetSize::for_encoded_container(container.len()) as usize;
    format!("0 {} {} {width}{}", container.len() - length, all.len(), all.concat())
}

/// A reader that stands at a place of some bytes.
fn standing(position: u64, place: u64, bytes: &[u8]) -> DeserializerCommon<'_, 'static, 'static, OwnedFd> {
    DeserializerCommon {
        ctxt: Context::new(Format::GVariant, Endian::Little, position as usize),
        bytes,
        fds: None,
        pos: place as usize,
        signature: &Signature::U8,
        container_depths: ContainerDepths::default(),
    }
}

/// A sum past 64 bits panics in the Rust; the open points judge it before the alignment.
fn parse_padding(position: u64, place: u64, align: u64, bytes: &[u8]) -> String {
    if position.checked_add(place).is_none() {
        return "3 0 0".to_string();
    }
    if !is_alignment(align) {
        return "17 0 0".to_string();
    }
    let mut reader = standing(position, place, bytes);
    match call(|| reader.parse_padding(align as usize)) {
        Some(Ok(padding)) => format!("0 {padding} {}", reader.pos),
        Some(Err(fault)) => format!("{} 0 0", refusal(fault)),
        None => "3 0 0".to_string(),
    }
}

fn next_slice(place: u64, length: u64, bytes: &[u8]) -> String {
    let mut reader = standing(0, place, bytes);
    match call(|| reader.next_slice(length as usize)) {
        Some(Ok(slice)) => format!("0 {} {}", hexadecimal(slice), reader.pos),
        Some(Err(fault)) => format!("{} - 0", refusal(fault)),
        None => "3 - 0".to_string(),
    }
}

/// One number, bool or text from these bytes at position 0, through the given reader: its payload.
fn one_value(signature: &Signature, order: Endian, bytes: &[u8]) -> String {
    let mut events = Vec::new();
    match record::read(signature, order, 0, bytes, &mut events) {
        Ok(_) => format!("0 {}", events[0].2),
        Err(fault) => format!("{} 0", refusal(fault)),
    }
}
