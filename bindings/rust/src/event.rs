//! Events: what reading hands over, one after another, and what writing takes.
//!
//! The archive gives and takes three numbers for each: the kind, which is the code of a character; a place, which matters for texts alone; and
//! the payload: a number's bits in its own width, or a text's length.

/// One event. Texts are parts of the frame that was read.
#[derive(Clone, Copy, Debug, PartialEq)]
pub enum Event<'f> {
    /// `b`
    Bool(bool),
    /// `y`
    Byte(u8),
    /// `n`
    Int16(i16),
    /// `q`
    Uint16(u16),
    /// `i`
    Int32(i32),
    /// `u`
    Uint32(u32),
    /// `x`
    Int64(i64),
    /// `t`
    Uint64(u64),
    /// `d`
    Double(f64),
    /// `s`
    Text(&'f str),
    /// `o`: any text is taken
    Path(&'f str),
    /// `g`: any text is taken. It also follows each `Variant`, and is then the type of the value
    Signature(&'f str),
    /// A maybe that is there: its value follows, and no `Close`.
    Present,
    /// A maybe that is not there. It is not a 0.
    Nothing,
    /// A variant: a `Signature`, its value and a `Close` follow.
    Variant,
    /// An array: its elements and a `Close` follow.
    Array,
    /// A whole dictionary: key, value, key, value, and a `Close` follow.
    Dictionary,
    /// A structure: its fields and a `Close` follow.
    Structure,
    /// Closes the last variant, array, dictionary or structure that is open.
    Close,
}

/// How many numbers an event takes in the room that [`read_into`](crate::read_into) is lent: kind, place, payload.
pub const EVENT_NUMBERS: usize = 3;

impl<'f> Event<'f> {
    /// The event of these numbers, over the frame that they were read from; none if no reading gives them.
    fn of(kind: u64, place: u64, payload: u64, frame: &'f [u8]) -> Option<Event<'f>> {
        let text = || {
            let start = usize::try_from(place).ok()?;
            let end = start.checked_add(usize::try_from(payload).ok()?)?;
            std::str::from_utf8(frame.get(start..end)?).ok()
        };
        Some(match u8::try_from(kind).ok()? {
            b'b' if payload <= 1 => Event::Bool(payload == 1),
            b'y' => Event::Byte(u8::try_from(payload).ok()?),
            b'n' => Event::Int16(u16::try_from(payload).ok()? as i16),
            b'q' => Event::Uint16(u16::try_from(payload).ok()?),
            b'i' => Event::Int32(u32::try_from(payload).ok()? as i32),
            b'u' => Event::Uint32(u32::try_from(payload).ok()?),
            b'x' => Event::Int64(payload as i64),
            b't' => Event::Uint64(payload),
            b'd' => Event::Double(f64::from_bits(payload)),
            b's' => Event::Text(text()?),
            b'o' => Event::Path(text()?),
            b'g' => Event::Signature(text()?),
            b'm' => Event::Present,
            b'N' => Event::Nothing,
            b'v' => Event::Variant,
            b'a' => Event::Array,
            b'{' => Event::Dictionary,
            b'(' => Event::Structure,
            b')' => Event::Close,
            _ => return None,
        })
    }

    /// Its kind and its payload; and its text, which writing takes from a slice beside the events.
    fn parts(self) -> (u8, u64, Option<&'f str>) {
        match self {
            Event::Bool(is) => (b'b', u64::from(is), None),
            Event::Byte(x) => (b'y', u64::from(x), None),
            Event::Int16(x) => (b'n', u64::from(x as u16), None),
            Event::Uint16(x) => (b'q', u64::from(x), None),
            Event::Int32(x) => (b'i', u64::from(x as u32), None),
            Event::Uint32(x) => (b'u', u64::from(x), None),
            Event::Int64(x) => (b'x', x as u64, None),
            Event::Uint64(x) => (b't', x, None),
            Event::Double(x) => (b'd', x.to_bits(), None),
            Event::Text(text) => (b's', text.len() as u64, Some(text)),
            Event::Path(text) => (b'o', text.len() as u64, Some(text)),
            Event::Signature(text) => (b'g', text.len() as u64, Some(text)),
            Event::Present => (b'm', 0, None),
            Event::Nothing => (b'N', 0, None),
            Event::Variant => (b'v', 0, None),
            Event::Array => (b'a', 0, None),
            Event::Dictionary => (b'{', 0, None),
            Event::Structure => (b'(', 0, None),
            Event::Close => (b')', 0, None),
        }
    }
}

/// The events of a frame that was read, in order.
#[derive(Clone, Debug)]
pub struct Events<'f, 'o> {
    frame: &'f [u8],
    numbers: &'o [u64],
}

impl<'f, 'o> Events<'f, 'o> {
    pub(crate) fn new(frame: &'f [u8], numbers: &'o [u64]) -> Self {
        Events { frame, numbers }
    }
}

impl<'f> Iterator for Events<'f, '_> {
    type Item = Event<'f>;

    fn next(&mut self) -> Option<Event<'f>> {
        match *self.numbers {
            [kind, place, payload, ref rest @ ..] => {
                self.numbers = rest;
                let event = Event::of(kind, place, payload, self.frame);
                Some(event.expect("the event of a frame that was read"))
            }
            _ => None,
        }
    }

    fn size_hint(&self) -> (usize, Option<usize>) {
        let left = self.numbers.len() / EVENT_NUMBERS;
        (left, Some(left))
    }
}

impl ExactSizeIterator for Events<'_, '_> {}

impl std::iter::FusedIterator for Events<'_, '_> {}

/// Events as writing takes them: a list of numbers, and the bytes of their texts. Any iterator over events collects into it.
#[derive(Clone, Debug, Default, PartialEq, Eq)]
pub struct EventList {
    pub(crate) numbers: Vec<u64>,
    pub(crate) texts: Vec<u8>,
}

impl EventList {
    /// An empty list.
    #[must_use]
    pub fn new() -> Self {
        EventList::default()
    }

    /// Adds an event.
    pub fn push(&mut self, event: Event<'_>) {
        let (kind, payload, text) = event.parts();
        let place = if text.is_some() { self.texts.len() } else { 0 };
        self.numbers.extend([u64::from(kind), place as u64, payload]);
        self.texts.extend_from_slice(text.unwrap_or_default().as_bytes());
    }
}

impl<'e> Extend<Event<'e>> for EventList {
    fn extend<I: IntoIterator<Item = Event<'e>>>(&mut self, events: I) {
        events.into_iter().for_each(|event| self.push(event));
    }
}

impl<'e> FromIterator<Event<'e>> for EventList {
    fn from_iter<I: IntoIterator<Item = Event<'e>>>(events: I) -> Self {
        let mut list = EventList::new();
        list.extend(events);
        list
    }
}
