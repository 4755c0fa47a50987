//! The calls of include/bogtassel.h, with slices in the place of pointers and lengths.
use crate::{Order, Refusal};

mod c {
    extern "C" {
        pub fn bogtassel_size(
            type_text: *const u8,
            type_length: usize,
            big_endian: bool,
            position: usize,
            frame: *const u8,
            frame_length: usize,
            used: *mut usize,
            event_count: *mut usize,
        ) -> u8;
        pub fn bogtassel_read(
            type_text: *const u8,
            type_length: usize,
            big_endian: bool,
            position: usize,
            frame: *const u8,
            frame_length: usize,
            out: *mut u64,
            out_length: usize,
            used: *mut usize,
            event_count: *mut usize,
        ) -> u8;
        pub fn bogtassel_write(
            type_text: *const u8,
            type_length: usize,
            big_endian: bool,
            events: *const u64,
            number_count: usize,
            texts: *const u8,
            texts_length: usize,
            out: *mut u8,
            out_length: usize,
            length: *mut usize,
        ) -> u8;
        pub fn bogtassel_edit(
            type_text: *const u8,
            type_length: usize,
            big_endian: bool,
            buffer: *mut u8,
            buffer_length: usize,
            used: usize,
            number: usize,
            present: bool,
            bits: u64,
            length: *mut usize,
        ) -> u8;
        pub fn bogtassel_is_written(
            type_text: *const u8,
            type_length: usize,
            big_endian: bool,
            frame: *const u8,
            frame_length: usize,
        ) -> u8;
    }
}

fn answer<T>(number: u8, done: T) -> Result<T, Refusal> {
    match (number, Refusal::of(number)) {
        (0, _) => Ok(done),
        (_, Some(refusal)) => Err(refusal),
        (_, None) => unreachable!("the archive gave {number}, which no call gives"),
    }
}

// In each call below: a slice's pointer is valid for its length, not null and aligned, also where it is empty; a `&mut` slice and the local
// numbers overlap nothing else. The archive keeps no pointer, and writes through those that are `mut` alone. That is all that the header asks.

pub(crate) fn size(signature: &[u8], order: Order, position: usize, frame: &[u8]) -> Result<(usize, usize), Refusal> {
    let (mut used, mut count) = (0, 0);
    // SAFETY: see above.
    let number = unsafe {
        c::bogtassel_size(
            signature.as_ptr(),
            signature.len(),
            order.is_big(),
            position,
            frame.as_ptr(),
            frame.len(),
            &mut used,
            &mut count,
        )
    };
    answer(number, (used, count))
}

pub(crate) fn read(
    signature: &[u8],
    order: Order,
    position: usize,
    frame: &[u8],
    out: &mut [u64],
) -> Result<(usize, usize), Refusal> {
    let (mut used, mut count) = (0, 0);
    // SAFETY: see above.
    let number = unsafe {
        c::bogtassel_read(
            signature.as_ptr(),
            signature.len(),
            order.is_big(),
            position,
            frame.as_ptr(),
            frame.len(),
            out.as_mut_ptr(),
            out.len(),
            &mut used,
            &mut count,
        )
    };
    answer(number, (used, count))
}

pub(crate) fn write(
    signature: &[u8],
    order: Order,
    events: &[u64],
    texts: &[u8],
    out: &mut [u8],
) -> Result<usize, Refusal> {
    let mut length = 0;
    // SAFETY: see above.
    let number = unsafe {
        c::bogtassel_write(
            signature.as_ptr(),
            signature.len(),
            order.is_big(),
            events.as_ptr(),
            events.len(),
            texts.as_ptr(),
            texts.len(),
            out.as_mut_ptr(),
            out.len(),
            &mut length,
        )
    };
    answer(number, length)
}

pub(crate) fn edit(
    signature: &[u8],
    order: Order,
    buffer: &mut [u8],
    used: usize,
    number: usize,
    new: Option<u64>,
) -> Result<usize, Refusal> {
    let mut length = 0;
    // SAFETY: see above.
    let refusal = unsafe {
        c::bogtassel_edit(
            signature.as_ptr(),
            signature.len(),
            order.is_big(),
            buffer.as_mut_ptr(),
            buffer.len(),
            used,
            number,
            new.is_some(),
            new.unwrap_or(0),
            &mut length,
        )
    };
    answer(refusal, length)
}

pub(crate) fn is_written(signature: &[u8], order: Order, frame: &[u8]) -> Result<(), Refusal> {
    // SAFETY: see above.
    let number = unsafe {
        c::bogtassel_is_written(
            signature.as_ptr(),
            signature.len(),
            order.is_big(),
            frame.as_ptr(),
            frame.len(),
        )
    };
    answer(number, ())
}
