//! The numbered refusals, and what each means. 14 is not used, and 18 is given by none of the calls here: they have no name.
use std::error::Error;
use std::fmt;

macro_rules! refusals {
    ($($number:literal $name:ident $meaning:literal,)*) => {
        /// Why a call refused. A refused call has changed nothing that it was lent.
        #[derive(Clone, Copy, Debug, PartialEq, Eq, Hash)]
        #[non_exhaustive]
        #[repr(u8)]
        pub enum Refusal {
            $(#[doc = concat!($number, ": ", $meaning, ".")] $name = $number,)*
        }

        impl Refusal {
            fn meaning(self) -> &'static str {
                match self {
                    $(Refusal::$name => $meaning,)*
                }
            }

            /// The refusal of a number; none for 0, which is no refusal, and for a number that has no meaning.
            #[must_use]
            pub fn of(number: u8) -> Option<Refusal> {
                match number {
                    $($number => Some(Refusal::$name),)*
                    _ => None,
                }
            }
        }
    };
}

refusals! {
    1 Type "the type is not one complete type of at most 255 characters",
    2 Limits "a frame has more than 65,536 bytes, a position is past 65,536, or a used length is past the buffer",
    3 Bounds "a value, an offset or padding runs past the bytes that it has",
    4 Padding "a padding byte is not 0",
    5 Nul "a nul inside a text",
    6 Utf8 "a text is not UTF-8",
    7 Maybe "the byte after a present maybe is not 0",
    8 Separator "a variant has no nul between its value and its type",
    9 VariantType "the type of a variant is refused",
    10 StructureDepth "more than 32 structures in one another",
    11 ArrayDepth "more than 32 arrays or dictionaries in one another",
    12 Depth "more than 64 containers in one another",
    13 Room "the lent room is too small for the whole answer",
    15 NotWritten "the frame reads, but is not in the form that writing gives it",
    16 NoReading "there is no such reading",
    17 Value "the number or the events are no value of the type",
}

impl Refusal {
    /// Its number, as in the table of refusals.
    #[must_use]
    pub fn number(self) -> u8 {
        self as u8
    }
}

impl fmt::Display for Refusal {
    fn fmt(&self, f: &mut fmt::Formatter<'_>) -> fmt::Result {
        write!(f, "{} (refusal {})", self.meaning(), self.number())
    }
}

impl Error for Refusal {}
