//! The oracle: the given Rust files, unchanged, and a program that asks them.
//! This file stands in for the crate root of zvariant, `lib.rs`: it says which module is given and which stands in.
//!
//! Two files are taken in with `include!` instead of as modules of their own, so that a module inside theirs can
//! reach what they keep private.

#[path = "standins/basic.rs"]
mod basic;
#[path = "standins/dbus.rs"]
mod dbus;
#[path = "standins/endian.rs"]
mod endian;
#[path = "standins/error.rs"]
mod error;
#[path = "standins/signature.rs"]
mod signature;

#[path = "given/de.rs"]
#[allow(dead_code)]
mod de;
#[path = "given/framing_offsets.rs"]
#[allow(dead_code)]
mod framing_offsets;
#[path = "given/utils.rs"]
#[allow(dead_code)]
mod utils;

mod framing_offset_size {
    include!("given/framing_offset_size.rs");

    /// Reaches the private functions.
    pub(crate) mod inside {
        use super::FramingOffsetSize;

        pub(crate) fn max(size: FramingOffsetSize) -> usize {
            size.max()
        }

        pub(crate) fn bump_up(size: FramingOffsetSize) -> Option<FramingOffsetSize> {
            size.bump_up()
        }
    }
}

mod container_depths {
    include!("given/container_depths.rs");

    /// Reaches the private counters: structure, array, variant, maybe.
    pub(crate) mod inside {
        use super::ContainerDepths;

        pub(crate) fn record([structure, array, variant, maybe]: [u8; 4]) -> ContainerDepths {
            ContainerDepths { structure, array, variant, maybe }
        }

        pub(crate) fn counters(record: ContainerDepths) -> [u8; 4] {
            [record.structure, record.array, record.variant, record.maybe]
        }
    }
}

#[path = "given/gvariant"]
#[allow(dead_code)]
mod gvariant {
    mod de;
    pub(crate) use de::Deserializer;
}

#[path = "given/serialized"]
#[allow(dead_code)]
mod serialized {
    mod context;
    pub use context::Context;

    /// Stands in for zvariant's `serialized/format.rs`.
    #[derive(Debug, PartialEq, Eq, Copy, Clone)]
    pub enum Format {
        DBus,
        GVariant,
    }
}

pub use basic::{Basic, ObjectPath};
pub use endian::{Endian, WriteBytes, LE};
pub use error::{Error, MaxDepthExceeded, Result};
pub use signature::Signature;

mod bench;
mod frames;
mod leaves;
mod lines;
mod record;

fn main() {
    std::panic::set_hook(Box::new(|_| {}));
    let arguments: Vec<String> = std::env::args().skip(1).collect();
    let outcome = match arguments.iter().map(String::as_str).collect::<Vec<_>>()[..] {
        [] => lines::answer_all(frames::answer),
        ["--met"] => lines::answer_all(frames::met),
        ["--leaf"] => lines::answer_all(leaves::answer),
        ["--bench", mode, signature, file, calls] => {
            bench::answer(mode, signature, file, calls).map(|answer| println!("{answer}"))
        }
        _ => Err("usage: oracle [--met|--leaf], lines on standard input; oracle --bench record|ignore TYPE FRAME_FILE CALLS".to_string()),
    };
    if let Err(message) = outcome {
        eprintln!("{message}");
        std::process::exit(2);
    }
}
