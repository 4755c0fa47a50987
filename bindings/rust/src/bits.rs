//! What a reading is put as by an edit.

/// A number's bits in its own width, as an edit takes them. Every number of Rust's that has a letter in a type turns into them: `Bits::from(-5_i16)`.
///
/// Bits do not tell from which type they came: -5 of 16 bits is 65,531, and an edit of a reading of `i` puts it as that. Bits that are wider than the
/// reading are refused, so a -5 of 64 bits is no `n`.
#[derive(Clone, Copy, Debug, PartialEq, Eq, Hash)]
pub struct Bits(pub(crate) u64);

macro_rules! bits_from {
    ($($number:ty, $same_width:ty;)*) => {
        $(impl From<$number> for Bits {
            fn from(number: $number) -> Bits {
                Bits(u64::from(number as $same_width))
            }
        })*
    };
}

bits_from! {
    bool, u8;
    u8, u8;
    i16, u16;
    u16, u16;
    i32, u32;
    u32, u32;
    i64, u64;
    u64, u64;
}

impl From<f64> for Bits {
    fn from(number: f64) -> Bits {
        Bits(number.to_bits())
    }
}
