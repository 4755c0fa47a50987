//! The recording visitor: reads a frame through the given `deserialize_any` and keeps document 01's events.

use crate::{
    gvariant::Deserializer, serialized::Context, serialized::Format, utils::padding_for_n_bytes, Endian, Result,
    Signature,
};
use serde::de::{self, DeserializeSeed, MapAccess, SeqAccess, Visitor};
use std::{fmt, mem, os::fd::OwnedFd};

/// One event: kind, place in the frame, payload.
pub(crate) type Event = (u8, u64, u64);

/// Reads a frame: the bytes used. The events of a refused frame are not to be used.
pub(crate) fn read(
    signature: &Signature,
    endian: Endian,
    position: usize,
    frame: &[u8],
    events: &mut Vec<Event>,
) -> Result<u64> {
    let context = Context::new(Format::GVariant, endian, position);
    let mut reader = Deserializer::<OwnedFd>::new(frame, None, signature, context)?;
    Recorder { frame: frame.as_ptr() as usize, events }.deserialize(&mut reader)?;
    Ok(reader.0.pos as u64)
}

/// Reads one value and appends its events.
struct Recorder<'a> {
    /// The address of the frame's first byte.
    frame: usize,
    events: &'a mut Vec<Event>,
}

/// A look at a reader of the given files from outside. In this program every reader that serde hands over is a
/// reference to theirs; it is looked at only before it is used and after it has come back.
struct Look(*const Deserializer<'static, 'static, 'static, OwnedFd>);

impl Look {
    fn at<D>(reader: &D) -> Self {
        assert_eq!(mem::size_of::<D>(), mem::size_of::<Self>());
        Look(unsafe { mem::transmute_copy(reader) })
    }

    fn letter(&self) -> u8 {
        unsafe { (*self.0).0.signature.letter() }
    }

    /// The place in the frame at which reading stands.
    fn place(&self, frame: usize) -> u64 {
        unsafe { ((*self.0).0.bytes.as_ptr() as usize - frame + (*self.0).0.pos) as u64 }
    }

    /// The padding that the value takes, if it can be read.
    fn padding(&self) -> u64 {
        unsafe { padding_for_n_bytes((*self.0).0.abs_pos(), (*self.0).0.signature.alignment(Format::GVariant)) as u64 }
    }
}

/// What a visit has seen, and what is still to be recorded of it when its reader has come back.
enum Seen {
    /// A number or bool: its bits and its width.
    Number(u64, u64),
    /// A text: its address and its length.
    Text(usize, u64),
    /// A maybe with its child, all recorded.
    Maybe,
    /// A container, recorded but for its close.
    Container,
}

impl<'de> DeserializeSeed<'de> for Recorder<'_> {
    type Value = ();

    fn deserialize<D: de::Deserializer<'de>>(self, reader: D) -> std::result::Result<(), D::Error> {
        let look = Look::at(&reader);
        let (frame, letter) = (self.frame, look.letter());
        let place = look.place(frame) + look.padding();
        let Recorder { events, .. } = self;
        let seen = reader.deserialize_any(Visit { frame, letter, place, events: &mut *events })?;
        let stand = look.place(frame);
        match seen {
            Seen::Number(bits, width) => events.push((letter, stand - width, bits)),
            Seen::Text(address, length) => events.push((letter, (address - frame) as u64, length)),
            Seen::Maybe => {}
            Seen::Container => events.push((b')', stand, 0)),
        }
        Ok(())
    }
}

struct Visit<'a> {
    frame: usize,
    letter: u8,
    /// The place of the value's first byte after padding.
    place: u64,
    events: &'a mut Vec<Event>,
}

impl Visit<'_> {
    fn child(&mut self) -> Recorder<'_> {
        Recorder { frame: self.frame, events: self.events }
    }
}

macro_rules! number {
    ($method:ident, $type:ty, $bits:expr) => {
        fn $method<E>(self, number: $type) -> std::result::Result<Seen, E> {
            let bits: fn($type) -> u64 = $bits;
            Ok(Seen::Number(bits(number), mem::size_of::<$type>() as u64))
        }
    };
}

impl<'de> Visitor<'de> for Visit<'_> {
    type Value = Seen;

    fn expecting(&self, f: &mut fmt::Formatter<'_>) -> fmt::Result {
        f.write_str("any value")
    }

    number!(visit_bool, bool, u64::from);
    number!(visit_u8, u8, u64::from);
    number!(visit_i16, i16, |number| u64::from(number as u16));
    number!(visit_u16, u16, u64::from);
    number!(visit_i32, i32, |number| u64::from(number as u32));
    number!(visit_u32, u32, u64::from);
    number!(visit_i64, i64, |number| number as u64);
    number!(visit_u64, u64, |number| number);
    number!(visit_f64, f64, f64::to_bits);

    fn visit_borrowed_str<E>(self, text: &'de str) -> std::result::Result<Seen, E> {
        Ok(Seen::Text(text.as_ptr() as usize, text.len() as u64))
    }

    fn visit_none<E>(self) -> std::result::Result<Seen, E> {
        self.events.push((b'N', self.place, 0));
        Ok(Seen::Maybe)
    }

    fn visit_some<D: de::Deserializer<'de>>(mut self, reader: D) -> std::result::Result<Seen, D::Error> {
        self.events.push((b'm', self.place, 0));
        self.child().deserialize(reader)?;
        Ok(Seen::Maybe)
    }

    fn visit_seq<A: SeqAccess<'de>>(mut self, mut elements: A) -> std::result::Result<Seen, A::Error> {
        self.events.push((self.letter, self.place, 0));
        while elements.next_element_seed(self.child())?.is_some() {}
        Ok(Seen::Container)
    }

    fn visit_map<A: MapAccess<'de>>(mut self, mut entries: A) -> std::result::Result<Seen, A::Error> {
        self.events.push((self.letter, self.place, 0));
        while entries.next_key_seed(self.child())?.is_some() {
            entries.next_value_seed(self.child())?;
        }
        Ok(Seen::Container)
    }
}
