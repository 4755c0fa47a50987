//! GVariant frames, read, written and edited by a codec whose every function is proved.
//!
//! The calls are those of `include/bogtassel.h`. Lengths and overlaps are the types' business here, so nothing can be called wrongly:
//! every call returns, with a result or with a numbered [`Refusal`], for all types, frames and buffers. What is proved is the archive; this
//! crate, which hands it slices and turns its numbers into enums, is tested.
//!
//! A type is one complete GVariant type of 1 to 255 characters, a frame has at most 65,536 bytes, and at most 32 structures, 32 arrays or
//! dictionaries and 64 containers in all may be open at once. `docs/STACK.md` of the project says how much stack a call takes: the stack of
//! a thread, as Rust makes them, is enough.
//!
//! A frame of a station, of type `amn`: an array of maybes of 16-bit numbers, in tenths of a degree.
//!
//! ```
//! use bogtassel::{read, Event, Order};
//!
//! let frame = [0xd7, 0x00, 0x00, 0x00, 0x02, 0x02, 0x04];
//! let reading = read("amn", Order::Little, 0, &frame)?;
//! let tenths: Vec<Option<i16>> = reading
//!     .events()
//!     .filter_map(|event| match event {
//!         Event::Int16(tenths) => Some(Some(tenths)),
//!         Event::Nothing => Some(None),
//!         _ => None,
//!     })
//!     .collect();
//! assert_eq!(tenths, [Some(215), None, Some(0)]);
//! # Ok::<(), bogtassel::Refusal>(())
//! ```
#![warn(missing_docs)]

mod archive;
mod bits;
mod event;
mod refusal;

#[cfg(doctest)]
#[doc = include_str!("../../../docs/FROM-ZVARIANT.md")]
struct FromZvariant;

pub use bits::Bits;
pub use event::{Event, EventList, Events, EVENT_NUMBERS};
pub use refusal::Refusal;

/// The most bytes that a frame may have, and the largest position.
pub const LARGEST_FRAME: usize = 65_536;

/// The byte order of a frame's numbers. Offsets are little-endian always.
#[derive(Clone, Copy, Debug, PartialEq, Eq, Hash)]
pub enum Order {
    /// The lowest byte first.
    Little,
    /// The highest byte first.
    Big,
}

impl Order {
    fn is_big(self) -> bool {
        self == Order::Big
    }
}

/// What a reading takes: the bytes used, and the number of its events.
#[derive(Clone, Copy, Debug, PartialEq, Eq)]
pub struct Size {
    /// The bytes used. Fewer than the frame has is no refusal.
    pub used: usize,
    /// The number of events.
    pub events: usize,
}

/// Judges a whole frame, at a position from which its alignment counts, and counts its events.
///
/// ```
/// use bogtassel::{size, Order, Refusal};
///
/// assert_eq!(size("amn", Order::Little, 0, &[0x02]), Err(Refusal::Bounds));
/// assert_eq!(size("amn", Order::Little, 0, &[0x00])?.events, 3);
/// # Ok::<(), Refusal>(())
/// ```
///
/// # Errors
/// 1 to 12, as [`Refusal`] numbers them.
pub fn size(signature: &str, order: Order, position: usize, frame: &[u8]) -> Result<Size, Refusal> {
    let (used, events) = archive::size(signature.as_bytes(), order, position, frame)?;
    Ok(Size { used, events })
}

/// A frame that was read: its events, and the bytes used.
#[derive(Clone, Debug)]
pub struct Reading<'f> {
    frame: &'f [u8],
    numbers: Vec<u64>,
    used: usize,
}

impl<'f> Reading<'f> {
    /// The bytes used.
    #[must_use]
    pub fn used(&self) -> usize {
        self.used
    }

    /// The events, in order.
    #[must_use]
    pub fn events(&self) -> Events<'f, '_> {
        Events::new(self.frame, &self.numbers)
    }
}

impl<'f, 'r> IntoIterator for &'r Reading<'f> {
    type Item = Event<'f>;
    type IntoIter = Events<'f, 'r>;

    fn into_iter(self) -> Events<'f, 'r> {
        self.events()
    }
}

/// Reads a frame, into memory that it allocates: 24 bytes for each event, of which [`size`] tells the number. [`read_into`] allocates none.
///
/// # Errors
/// 1 to 12.
pub fn read<'f>(signature: &str, order: Order, position: usize, frame: &'f [u8]) -> Result<Reading<'f>, Refusal> {
    let (_, count) = archive::size(signature.as_bytes(), order, position, frame)?;
    let mut numbers = vec![0; EVENT_NUMBERS * count];
    let (used, _) = archive::read(signature.as_bytes(), order, position, frame, &mut numbers)?;
    Ok(Reading { frame, numbers, used })
}

/// Reads a frame into lent numbers, three for each event; gives the bytes used, and the events.
/// The numbers behind the last event, and all of them where the frame is refused, are as they were.
///
/// ```
/// use bogtassel::{read_into, Event, Order, Refusal};
///
/// let mut room = [0; 6];
/// let (used, mut events) = read_into("ms", Order::Little, 0, b"a\0\0", &mut room)?;
/// assert_eq!((used, events.next(), events.next()), (3, Some(Event::Present), Some(Event::Text("a"))));
/// # Ok::<(), Refusal>(())
/// ```
///
/// # Errors
/// 1 to 12; 13 where the room is too small for all events.
pub fn read_into<'f, 'o>(
    signature: &str,
    order: Order,
    position: usize,
    frame: &'f [u8],
    room: &'o mut [u64],
) -> Result<(usize, Events<'f, 'o>), Refusal> {
    let (used, count) = archive::read(signature.as_bytes(), order, position, frame, room)?;
    Ok((used, Events::new(frame, &room[..EVENT_NUMBERS * count])))
}

/// Writes the value that the events spell, into memory that it allocates. [`write_into`] allocates none.
///
/// ```
/// use bogtassel::{write, Event, Order};
///
/// let frame = write("amn", Order::Little, &[Event::Array, Event::Nothing, Event::Nothing, Event::Nothing, Event::Close].into_iter().collect())?;
/// assert_eq!(frame, [0, 0, 0]);
/// # Ok::<(), bogtassel::Refusal>(())
/// ```
///
/// # Errors
/// 1; 17, 5, 6, 9 to 12 by the first event that is wrong; 2.
pub fn write(signature: &str, order: Order, events: &EventList) -> Result<Vec<u8>, Refusal> {
    let mut out = vec![0; LARGEST_FRAME];
    let length = write_into(signature, order, events, &mut out)?;
    out.truncate(length);
    Ok(out)
}

/// Writes the value that the events spell at the front of a lent slice, and gives the frame's length. What is behind the frame, and
/// all of it where writing is refused, is as it was.
///
/// # Errors
/// As [`write`]; 13 where the slice is too small for the frame.
pub fn write_into(signature: &str, order: Order, events: &EventList, out: &mut [u8]) -> Result<usize, Refusal> {
    archive::write(signature.as_bytes(), order, &events.numbers, &events.texts, out)
}

/// Puts one reading of a frame anew, in its buffer: as nothing, or as a number.
///
/// The frame, at position 0, is the first `used` bytes of the buffer, and must be in the form that writing gives it. A reading is a maybe of
/// `b y n q i u x t d`, wherever it stands; `number` counts them from 0 in the order of reading. Afterwards `used` is the new frame's length. Nothing in
/// front of the reading is written. Where the frame became shorter, zeros stand between the new length and the old one; beyond both the
/// buffer is as it was.
///
/// ```
/// use bogtassel::{edit, Order, Refusal};
///
/// let mut buffer = [0xd7, 0x00, 0x00, 0x00, 0x02, 0x02, 0x04];
/// let mut used = buffer.len();
/// edit("amn", Order::Little, &mut buffer, &mut used, 0, None)?;
/// assert_eq!(buffer[..used], [0x00, 0x00, 0x00, 0x00, 0x02]);
/// edit("amn", Order::Little, &mut buffer, &mut used, 2, Some((-5_i16).into()))?;
/// assert_eq!(buffer[..used], [0xfb, 0xff, 0x00, 0x00, 0x02]);
/// assert_eq!(edit("amn", Order::Little, &mut buffer, &mut used, 3, None), Err(Refusal::NoReading));
/// # Ok::<(), Refusal>(())
/// ```
///
/// # Errors
/// 1; 2 where `used` is over the buffer or over 65,536; 3 to 12 where the frame does not read; 15 where it reads and is not in that form; 16 where there is
/// no such reading; 17 where the bits are no value of its type; 12 where a nothing inside 64 containers would become present; 2 where the new frame
/// is over 65,536 bytes; 13 where it is over the buffer. Buffer and `used` are then as they were.
/// A withdrawal (`None`) meets none of the last four: it needs no spare room, and never makes a frame longer.
pub fn edit(
    signature: &str,
    order: Order,
    buffer: &mut [u8],
    used: &mut usize,
    number: usize,
    new: Option<Bits>,
) -> Result<(), Refusal> {
    *used = archive::edit(
        signature.as_bytes(),
        order,
        buffer,
        *used,
        number,
        new.map(|bits| bits.0),
    )?;
    Ok(())
}

/// Whether a frame, at position 0, is in the form that writing gives it.
///
/// ```
/// use bogtassel::{is_written, Order, Refusal};
///
/// assert_eq!(is_written("b", Order::Little, &[1]), Ok(()));
/// assert_eq!(is_written("b", Order::Little, &[2]), Err(Refusal::NotWritten));
/// ```
///
/// # Errors
/// 1 and 2; 3 to 12 where the frame does not read; 15 where it reads and is not in that form.
pub fn is_written(signature: &str, order: Order, frame: &[u8]) -> Result<(), Refusal> {
    archive::is_written(signature.as_bytes(), order, frame)
}
