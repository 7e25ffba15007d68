//! The same of a core in a box, for `#[serde(with = "a72_serde::boxed")]`.
use a72::place::State;
use a72::{Core, WORDS};
use alloc::boxed::Box;
use alloc::vec;
use core::fmt::{self, Formatter};
use serde::de::{Deserializer, SeqAccess, Visitor};
use serde::ser::Serializer;

/// A core's words.
#[allow(clippy::borrowed_box)]
pub fn serialize<S: Serializer>(core: &Box<Core>, serializer: S) -> Result<S::Ok, S::Error> {
    crate::serialize(core, serializer)
}

/// The core of these words.
pub fn deserialize<'de, D: Deserializer<'de>>(deserializer: D) -> Result<Box<Core>, D::Error> {
    deserializer.deserialize_seq(Words)
}

struct Words;

impl<'de> Visitor<'de> for Words {
    type Value = Box<Core>;

    fn expecting(&self, f: &mut Formatter) -> fmt::Result {
        crate::expected(f)
    }

    /// The words lie in a box too, so that the stack has none.
    fn visit_seq<A: SeqAccess<'de>>(self, seq: A) -> Result<Box<Core>, A::Error> {
        let mut words: Box<State> = vec![0; WORDS].try_into().expect("as many words as a core has");
        crate::read(seq, &mut words, &self)?;
        let mut core = Box::<Core>::default();
        core.restore(&words);
        Ok(core)
    }
}
