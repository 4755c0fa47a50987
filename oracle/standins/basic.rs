//! Stands in for zvariant's `basic.rs` and `object_path.rs`: a basic type's text, and its alignment in the D-Bus format,
//! which for the numbers is their width.

use crate::{serialized::Format, Signature};

pub trait Basic {
    const SIGNATURE_STR: &'static str;
    const WIDTH: usize;

    fn alignment(_format: Format) -> usize {
        Self::WIDTH
    }
}

/// Only named by the given files, in a message.
#[allow(dead_code)]
pub struct ObjectPath<'a>(&'a str);

macro_rules! basic {
    ($type:ty, $text:literal, $width:literal) => {
        impl Basic for $type {
            const SIGNATURE_STR: &'static str = $text;
            const WIDTH: usize = $width;
        }
    };
}

basic!(u8, "y", 1);
basic!(i16, "n", 2);
basic!(u16, "q", 2);
basic!(i32, "i", 4);
basic!(u32, "u", 4);
basic!(i64, "x", 8);
basic!(u64, "t", 8);
basic!(f64, "d", 8);
basic!(&str, "s", 4);
basic!(Signature, "g", 1);
basic!(ObjectPath<'_>, "o", 4);
