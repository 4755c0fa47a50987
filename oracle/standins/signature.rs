//! Stands in for zvariant_utils' `signature` modules: the tree of a type, its alignment and fixed size by document 01,
//! and the parser, which is document 01's grammar exactly and not the Rust's own.

use crate::{serialized::Format, Error, Result};

#[derive(Debug, Clone, PartialEq, Eq)]
#[allow(dead_code)]
pub enum Signature {
    Unit,
    U8,
    Bool,
    I16,
    U16,
    I32,
    U32,
    I64,
    U64,
    F64,
    Str,
    Signature,
    ObjectPath,
    Variant,
    Fd,
    Array(Child),
    Dict { key: Child, value: Child },
    Structure(Fields),
    Maybe(Child),
}

/// The one child of an array or maybe, or the key or value of a dictionary.
#[derive(Debug, Clone, PartialEq, Eq)]
pub struct Child(Box<Signature>);

impl Child {
    pub fn signature(&self) -> &Signature {
        &self.0
    }

    pub fn is_fixed_sized(&self) -> bool {
        self.0.is_fixed_sized()
    }
}

/// The fields of a structure.
#[derive(Debug, Clone, PartialEq, Eq)]
pub struct Fields(Vec<Signature>);

impl Fields {
    pub fn iter(&self) -> std::slice::Iter<'_, Signature> {
        self.0.iter()
    }

    pub fn get(&self, index: usize) -> Option<&Signature> {
        self.0.get(index)
    }
}

impl Signature {
    pub const LONGEST: usize = 255;

    /// One complete type of 1 to 255 characters, or a parse error.
    pub fn from_bytes(text: &[u8]) -> Result<Signature> {
        if text.len() > Self::LONGEST {
            return Err(Error::SignatureParse);
        }
        match parse(text) {
            Some((signature, [])) => Ok(signature),
            _ => Err(Error::SignatureParse),
        }
    }

    pub fn alignment(&self, format: Format) -> usize {
        assert_eq!(format, Format::GVariant);
        match self {
            Signature::Unit | Signature::U8 | Signature::Bool => 1,
            Signature::Str | Signature::Signature | Signature::ObjectPath => 1,
            Signature::I16 | Signature::U16 => 2,
            Signature::I32 | Signature::U32 | Signature::Fd => 4,
            Signature::I64 | Signature::U64 | Signature::F64 | Signature::Variant => 8,
            Signature::Array(child) | Signature::Maybe(child) => child.0.alignment(format),
            Signature::Dict { key, value } => key.0.alignment(format).max(value.0.alignment(format)),
            Signature::Structure(fields) => {
                fields.iter().map(|field| field.alignment(format)).max().unwrap_or(1)
            }
        }
    }

    pub fn is_fixed_sized(&self) -> bool {
        match self {
            Signature::Str | Signature::Signature | Signature::ObjectPath => false,
            Signature::Variant | Signature::Array(_) | Signature::Dict { .. } => false,
            Signature::Maybe(_) => false,
            Signature::Structure(fields) => fields.iter().all(Signature::is_fixed_sized),
            _ => true,
        }
    }

    /// The letter that an event of this type carries.
    pub fn letter(&self) -> u8 {
        match self {
            Signature::U8 => b'y',
            Signature::Bool => b'b',
            Signature::I16 => b'n',
            Signature::U16 => b'q',
            Signature::I32 => b'i',
            Signature::U32 => b'u',
            Signature::I64 => b'x',
            Signature::U64 => b't',
            Signature::F64 => b'd',
            Signature::Str => b's',
            Signature::Signature => b'g',
            Signature::ObjectPath => b'o',
            Signature::Variant => b'v',
            Signature::Array(_) => b'a',
            Signature::Dict { .. } => b'{',
            Signature::Structure(_) => b'(',
            Signature::Maybe(_) => b'm',
            Signature::Unit | Signature::Fd => unreachable!("no type of document 01"),
        }
    }
}

/// The type that a text begins with, and the rest of the text.
fn parse(text: &[u8]) -> Option<(Signature, &[u8])> {
    let (&first, rest) = text.split_first()?;
    match first {
        b'v' => Some((Signature::Variant, rest)),
        b'm' => {
            let (child, rest) = parse(rest)?;
            Some((Signature::Maybe(Child(Box::new(child))), rest))
        }
        b'a' if rest.first() == Some(&b'{') => parse_dictionary(&rest[1..]),
        b'a' => {
            let (child, rest) = parse(rest)?;
            Some((Signature::Array(Child(Box::new(child))), rest))
        }
        b'(' => parse_structure(rest),
        letter => Some((basic(letter)?, rest)),
    }
}

/// What stands behind `a{`: a basic key, a value type and the closing brace.
fn parse_dictionary(text: &[u8]) -> Option<(Signature, &[u8])> {
    let (&letter, rest) = text.split_first()?;
    let key = Child(Box::new(basic(letter)?));
    let (value, rest) = parse(rest)?;
    let rest = rest.strip_prefix(b"}")?;
    Some((Signature::Dict { key, value: Child(Box::new(value)) }, rest))
}

/// What stands behind `(`: one or more types and the closing parenthesis.
fn parse_structure(text: &[u8]) -> Option<(Signature, &[u8])> {
    let (first, mut rest) = parse(text)?;
    let mut fields = vec![first];
    while rest.first() != Some(&b')') {
        let (field, after) = parse(rest)?;
        fields.push(field);
        rest = after;
    }
    Some((Signature::Structure(Fields(fields)), &rest[1..]))
}

fn basic(letter: u8) -> Option<Signature> {
    match letter {
        b'b' => Some(Signature::Bool),
        b'y' => Some(Signature::U8),
        b'n' => Some(Signature::I16),
        b'q' => Some(Signature::U16),
        b'i' => Some(Signature::I32),
        b'u' => Some(Signature::U32),
        b'x' => Some(Signature::I64),
        b't' => Some(Signature::U64),
        b'd' => Some(Signature::F64),
        b's' => Some(Signature::Str),
        b'o' => Some(Signature::ObjectPath),
        b'g' => Some(Signature::Signature),
        _ => None,
    }
}
