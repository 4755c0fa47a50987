//! Stands in for zvariant's `dbus/de.rs`, of which the given reader uses the numbers only: padding to the number's width
//! and the number's bytes, both by the given `DeserializerCommon`, then the number in the byte order asked.

use crate::{de::DeserializerCommon, Error, Result};
use serde::de::{self, Visitor};
use std::os::fd::AsFd;

#[derive(Debug)]
pub(crate) struct Deserializer<'de, 'sig, 'f, F>(pub(crate) DeserializerCommon<'de, 'sig, 'f, F>);

macro_rules! number {
    ($method:ident, $read:ident, $visit:ident, $type:ty) => {
        fn $method<V: Visitor<'de>>(self, visitor: V) -> Result<V::Value> {
            let endian = self.0.ctxt.endian();
            let number = endian.$read(self.0.next_const_size_slice::<$type>()?);
            visitor.$visit(number)
        }
    };
}

impl<'de, F: AsFd> de::Deserializer<'de> for &mut Deserializer<'de, '_, '_, F> {
    type Error = Error;

    number!(deserialize_u8, read_u8, visit_u8, u8);
    number!(deserialize_i16, read_i16, visit_i16, i16);
    number!(deserialize_u16, read_u16, visit_u16, u16);
    number!(deserialize_i32, read_i32, visit_i32, i32);
    number!(deserialize_u32, read_u32, visit_u32, u32);
    number!(deserialize_i64, read_i64, visit_i64, i64);
    number!(deserialize_u64, read_u64, visit_u64, u64);
    number!(deserialize_f64, read_f64, visit_f64, f64);

    fn deserialize_any<V: Visitor<'de>>(self, _visitor: V) -> Result<V::Value> {
        unreachable!("the given reader asks the D-Bus reader for numbers only")
    }

    serde::forward_to_deserialize_any! {
        bool i8 f32 char str string bytes byte_buf option unit unit_struct newtype_struct seq tuple
        tuple_struct map struct enum identifier ignored_any
    }
}
