// Written by tools/plain from crates/quick/src/instance.rt: change that.
//! What is fixed for one instance of a function: the width of its bytes, or the kind of its access. Each instance is a
//! function of its own, so that no choice is left on its way, and none of its six words is spent on one.

use crate::stage1::tlb::access::Kind;
use crate::stage1::word::ram::Width;

/// What a load or store moves.
pub trait Datum {
    const WIDTH: Width;
}

impl Datum for u8 {
    const WIDTH: Width = Width::Byte;
}

impl Datum for u16 {
    const WIDTH: Width = Width::Half;
}

impl Datum for u32 {
    const WIDTH: Width = Width::Word;
}

impl Datum for u64 {
    const WIDTH: Width = Width::Double;
}

/// What an address is translated for.
pub trait Purpose {
    const KIND: Kind;
}

#[derive(Clone, Copy, Debug, PartialEq, Eq)]
pub struct Reading;

#[derive(Clone, Copy, Debug, PartialEq, Eq)]
pub struct Writing;

#[derive(Clone, Copy, Debug, PartialEq, Eq)]
pub struct Fetching;

impl Purpose for Reading {
    const KIND: Kind = Kind::Read;
}

impl Purpose for Writing {
    const KIND: Kind = Kind::Write;
}

impl Purpose for Fetching {
    const KIND: Kind = Kind::Fetch;
}
