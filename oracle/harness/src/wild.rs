//! Wild cores: parts of a core's state overwritten from outside, with values that no list of operations need
//! ever reach. The same parts go into both cores of a comparison.
use crate::ffi::{state_of, words_of, LEVEL_WORDS};
use crate::place;
use crate::state::State;

/// A part of a state. Written whole, so that what a core leaves in dead records cannot show.
#[derive(Clone, Copy, Debug, PartialEq, Eq)]
pub enum Part {
    /// A word before the fetch hint, or one of the levels' counters, by its place ([`crate::place`]).
    Word(u16, u64),
    /// Slot, key, physical page.
    Hint(u16, u64, u64),
    /// Slot, then the entry's four words as in the layout.
    Entry(u16, [u64; 4]),
    /// Page, level, physical page.
    Fetch(u64, u32, u64),
}

/// The bits of a word that a core can hold.
fn fitting(at: usize, v: u64) -> u64 {
    match at {
        place::NZCV => v & 0xF000_0000,
        place::DAIF => v & 0x3C0,
        place::SPSEL => v & 1,
        place::LEVEL => v & 0xFFFF_FFFF,
        place::UNPRIVILEGED => v & 1,
        place::PENDING => v & 3,
        place::GENERATION => v & 0xFFFF_FFFF,
        place::ASID => v & 0xFFFF,
        _ => v,
    }
}

impl State {
    pub fn put(&mut self, part: &Part) {
        match *part {
            Part::Word(at, v) => self.put_word(usize::from(at), v),
            Part::Hint(slot, key, pa) => {
                self.hints.retain(|h| h.0 != slot % 512);
                if key != u64::MAX {
                    self.hints.push((slot % 512, key, pa));
                    self.hints.sort();
                }
            }
            Part::Entry(slot, record) => {
                let mut words = words_of(self);
                let at = place::ENTRIES + 4 * usize::from(slot % 1024);
                words[at..at + 4].copy_from_slice(&record);
                *self = state_of(&words);
            }
            Part::Fetch(page, level, pa) => self.fetch = Some((page, level, pa)),
        }
    }

    /// Live entries stay live where the generation is overwritten.
    fn put_word(&mut self, at: usize, v: u64) {
        if at >= place::FETCH && !LEVEL_WORDS.contains(&at) {
            return;
        }
        let mut words = words_of(self);
        words[at] = fitting(at, v);
        words[place::PENDING_VALUE] &= [0, 0, u64::MAX, 0xFFFF][words[place::PENDING] as usize];
        let new = state_of(&words);
        self.ahead.retain(|(g, _)| *g > new.generation);
        *self = State {
            entries: std::mem::take(&mut self.entries),
            ahead: std::mem::take(&mut self.ahead),
            ..new
        };
    }
}
