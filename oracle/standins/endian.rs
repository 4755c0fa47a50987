//! Stands in for zvariant's `endian.rs` and its readers and writers of numbers in a byte order.

use std::io;

#[derive(Debug, PartialEq, Eq, Copy, Clone)]
pub enum Endian {
    Little,
    Big,
}

pub const LE: Endian = Endian::Little;

macro_rules! read {
    ($name:ident, $type:ty) => {
        pub fn $name(self, bytes: &[u8]) -> $type {
            let bytes = bytes.try_into().expect("as many bytes as the number is wide");
            match self {
                Endian::Little => <$type>::from_le_bytes(bytes),
                Endian::Big => <$type>::from_be_bytes(bytes),
            }
        }
    };
}

impl Endian {
    read!(read_u8, u8);
    read!(read_i16, i16);
    read!(read_u16, u16);
    read!(read_i32, i32);
    read!(read_u32, u32);
    read!(read_i64, i64);
    read!(read_u64, u64);
    read!(read_f64, f64);
}

macro_rules! write {
    ($name:ident, $type:ty) => {
        fn $name(&mut self, endian: Endian, number: $type) -> io::Result<()> {
            match endian {
                Endian::Little => self.write_all(&number.to_le_bytes()),
                Endian::Big => self.write_all(&number.to_be_bytes()),
            }
        }
    };
}

pub trait WriteBytes: io::Write {
    write!(write_u8, u8);
    write!(write_u16, u16);
    write!(write_u32, u32);
    write!(write_u64, u64);
}

impl<W: io::Write> WriteBytes for W {}
