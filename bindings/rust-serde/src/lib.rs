//! serde for cores of the crate [`a72`]: one is kept as its words, a sequence of [`a72::WORDS`] numbers whose places
//! [`a72::place`] names, and made of any words again. No unsafe code, no allocation but for boxes (feature `alloc`).
//!
//! A field that is a [`Core`] takes `#[serde(with = "a72_serde")]`, one that is a box of it `"a72_serde::boxed"`; where
//! no field is, as in a list, a [`Kept`] stands for it.
//!
//! ```
//! use a72::{Core, registers};
//! use a72_serde::Kept;
//! use serde::{Deserialize, Serialize};
//!
//! #[derive(Serialize, Deserialize)]
//! struct Machine {
//!     #[serde(with = "a72_serde::boxed")]
//!     first: Box<Core>,
//!     others: Vec<Kept>,
//!     ram: Vec<u8>,
//! }
//!
//! let mut machine = Machine { first: Box::default(), others: vec![Kept::default()], ram: vec![0; 64] };
//! machine.first.write_register(registers::VBAR_EL1, 0x800).unwrap();
//! let bytes = bincode::serialize(&machine).unwrap();
//! let again: Machine = bincode::deserialize(&bytes).unwrap();
//! assert!(again.first == machine.first && again.others == machine.others);
//! ```
#![no_std]
#![forbid(unsafe_code)]
#![warn(missing_docs)]

#[cfg(feature = "alloc")]
extern crate alloc;

#[cfg(feature = "alloc")]
pub mod boxed;

use a72::place::State;
use a72::{Core, WORDS};
use core::fmt::{self, Formatter};
use serde::de::{Deserialize, Deserializer, Error, Expected, SeqAccess, Visitor};
use serde::ser::{Serialize, SerializeSeq, Serializer};

/// A core that serde takes where it stands by itself.
#[derive(Clone, Debug, Default, PartialEq, Eq)]
pub struct Kept(pub Core);

impl Serialize for Kept {
    fn serialize<S: Serializer>(&self, serializer: S) -> Result<S::Ok, S::Error> {
        serialize(&self.0, serializer)
    }
}

impl<'de> Deserialize<'de> for Kept {
    fn deserialize<D: Deserializer<'de>>(deserializer: D) -> Result<Kept, D::Error> {
        deserialize(deserializer).map(Kept)
    }
}

/// A core's words.
pub fn serialize<S: Serializer>(core: &Core, serializer: S) -> Result<S::Ok, S::Error> {
    let mut words = serializer.serialize_seq(Some(WORDS))?;
    for place in 0..WORDS {
        words.serialize_element(&core.word(place))?;
    }
    words.end()
}

/// The core of these words. Any are a core's; fewer or more are an error.
pub fn deserialize<'de, D: Deserializer<'de>>(deserializer: D) -> Result<Core, D::Error> {
    deserializer.deserialize_seq(Words)
}

/// What a core is made of, for an error.
fn expected(f: &mut Formatter) -> fmt::Result {
    write!(f, "the {WORDS} words of a core")
}

/// A core's words out of a sequence that has no fewer and no more.
fn read<'de, A: SeqAccess<'de>>(
    mut seq: A,
    words: &mut State,
    expected: &impl Expected,
) -> Result<(), A::Error> {
    for (place, word) in words.iter_mut().enumerate() {
        *word = seq
            .next_element()?
            .ok_or_else(|| A::Error::invalid_length(place, expected))?;
    }
    match seq.next_element::<u64>()? {
        Some(_) => Err(A::Error::custom(format_args!(
            "more than the {WORDS} words of a core"
        ))),
        None => Ok(()),
    }
}

struct Words;

impl<'de> Visitor<'de> for Words {
    type Value = Core;

    fn expecting(&self, f: &mut Formatter) -> fmt::Result {
        expected(f)
    }

    fn visit_seq<A: SeqAccess<'de>>(self, seq: A) -> Result<Core, A::Error> {
        let mut words = [0; WORDS];
        read(seq, &mut words, &self)?;
        let mut core = Core::new();
        core.restore(&words);
        Ok(core)
    }
}
