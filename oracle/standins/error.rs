//! Stands in for zvariant's `error.rs`: the kinds of `Error` that the given files name, and the faults that serde lets
//! them build (`invalid_length`, `invalid_value`), kept apart so that each gives its refusal number.

use crate::Signature;
use serde::de::{Expected, Unexpected};
use std::{fmt, io, str::Utf8Error, sync::Arc};

#[derive(Debug, Clone, Copy, PartialEq, Eq)]
pub enum MaxDepthExceeded {
    Structure,
    Array,
    Container,
}

#[allow(dead_code)]
#[derive(Debug, Clone)]
pub enum Error {
    Message(String),
    InputOutput(Arc<io::Error>),
    OutOfBounds,
    InvalidLength,
    InteriorNul,
    MaybeNotClosed,
    NoSeparator,
    PaddingNot0(u8),
    Utf8(Utf8Error),
    UnknownFd,
    MissingFramingOffset,
    SignatureMismatch(Signature, String),
    SignatureParse,
    MaxDepthExceeded(MaxDepthExceeded),
}

pub type Result<T> = std::result::Result<T, Error>;

impl Error {
    /// The refusal number of document 01's table, if the fault has one.
    pub fn refusal(&self) -> Option<u64> {
        match self {
            Error::OutOfBounds | Error::InvalidLength => Some(3),
            Error::PaddingNot0(_) => Some(4),
            Error::InteriorNul => Some(5),
            Error::Utf8(_) => Some(6),
            Error::MaybeNotClosed => Some(7),
            Error::NoSeparator => Some(8),
            Error::SignatureParse => Some(9),
            Error::MaxDepthExceeded(MaxDepthExceeded::Structure) => Some(10),
            Error::MaxDepthExceeded(MaxDepthExceeded::Array) => Some(11),
            Error::MaxDepthExceeded(MaxDepthExceeded::Container) => Some(12),
            // The table does not use this number, and no call of ours gives it: a frame on which the Rust said so would be a difference.
            Error::MissingFramingOffset => Some(14),
            _ => None,
        }
    }
}

impl serde::de::Error for Error {
    fn custom<T: fmt::Display>(message: T) -> Self {
        Error::Message(message.to_string())
    }

    fn invalid_length(_length: usize, _expected: &dyn Expected) -> Self {
        Error::InvalidLength
    }

    fn invalid_value(_found: Unexpected<'_>, expected: &dyn Expected) -> Self {
        match expected.to_string().as_str() {
            "GVariant string type must not contain interior null bytes" => Error::InteriorNul,
            "0 byte expected at end of Maybe value" => Error::MaybeNotClosed,
            "nul byte separator between Variant's value & signature" => Error::NoSeparator,
            other => Error::Message(other.to_string()),
        }
    }
}

impl fmt::Display for Error {
    fn fmt(&self, f: &mut fmt::Formatter<'_>) -> fmt::Result {
        write!(f, "{self:?}")
    }
}

impl std::error::Error for Error {}
