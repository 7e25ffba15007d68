//! The pokes, as edits of a saved core's words: states that no list reaches, or not soon.
use super::{Words, ENTRY_WORDS, LEVEL_WORDS};
use crate::op::Op;
use crate::place;

pub fn poke(w: &mut Words, op: &Op) {
    match *op {
        Op::PokeLevel(level) => w[place::LEVEL] = level.into(),
        Op::PokePc(v) => w[place::PC] = v,
        Op::PokeSpsel(on) => w[place::SPSEL] = on.into(),
        Op::PokeGeneration(g) => move_generation(w, g.into()),
        Op::PokeCounters(v) => set_counters(w, v),
        Op::TakeBroadcast => w[place::PENDING..=place::PENDING_VALUE].fill(0),
        _ => unreachable!("{op} is no poke"),
    }
}

/// All of EL0 and those that are single; EL1 to EL3 counted nothing, so that the sums are this too.
fn set_counters(w: &mut Words, v: u64) {
    w[place::FLUSHES..=place::EPOCH].fill(v);
    w[LEVEL_WORDS].fill(0);
    w[place::LEVEL_HITS] = v;
    w[place::LEVEL_WALKS] = v;
}

/// As if many flushes had gone by: live entries stay live, all others are cleared.
fn move_generation(w: &mut Words, to: u64) {
    let present = w[place::GENERATION];
    for entry in w[ENTRY_WORDS].chunks_mut(4) {
        if entry[1] == present {
            entry[1] = to;
        } else {
            entry.fill(0);
        }
    }
    w[place::GENERATION] = to;
}
