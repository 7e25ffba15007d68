//! Short lines, and cases that another implementation answered; `recorded/README.md` has both.
use crate::place;
use crate::state::State;

/// In a record the places from here on are the words of the last answer. A number of the format: it stays where a state
/// grows.
const ANSWER: u64 = 0x10000;
const _: () = assert!(place::WORDS as u64 <= ANSWER);

/// The word at a place of a case: of the last answer, or of the state.
fn word_at(place: u64, state: &State, answer: &[u64; 4]) -> Result<u64, String> {
    let word = match place.checked_sub(ANSWER) {
        Some(i) => answer.get(i as usize).copied(),
        None => crate::ffi::words_of(state).get(place as usize).copied(),
    };
    word.ok_or_else(|| format!("{place} is no place"))
}

/// A line's eight words from its first and those that follow: how many of these it took, too.
pub fn expand(first: u64, rest: &[u64]) -> Option<([u64; 8], usize)> {
    let n = (first >> 8 & 0xFF) as usize;
    let more = rest.get(..n).filter(|_| n < 4)?;
    let (code, small) = (first & 0x7F, first >> 16);
    let w = |i: usize| more.get(i).copied().unwrap_or(0);
    let byte = |i: u32| small >> (8 * i) & 0xFF;
    let words = match code {
        4 => [4, w(0), small, 0, 0, 0, 0, 0],
        5 => [5, w(0), small, w(1), 0, 0, 0, 0],
        6 | 41 => [code, w(0), 0, 0, 0, 0, 0, 0],
        7 => [7, byte(0), byte(1), byte(2), byte(3), byte(4), 0, 0],
        _ => [code, small, w(0), w(1), w(2), 0, 0, 0],
    };
    Some((words, n))
}

/// A case while it is replayed.
#[derive(Default)]
pub struct Case {
    class: u64,
    wrong: Option<String>,
    /// How many parts of the other answer were told, and how many of them the core has too.
    told: u64,
    same: u64,
}

impl Case {
    fn due(&mut self, place: u64, is: u64, want: u64) {
        if is != want && self.wrong.is_none() {
            self.wrong = Some(format!("word {place} is {is:x}, not {want:x}"));
        }
    }

    /// A line of a case; at its end what was wrong, if anything.
    pub fn line(&mut self, w: &[u64; 8], state: &State, answer: &[u64; 4]) -> Result<(), String> {
        let found = |place: u64| word_at(place, state, answer);
        match w[0] {
            70 => {
                *self = Case {
                    class: w[1],
                    ..Case::default()
                }
            }
            71 => self.due(w[1], found(w[1])?, w[2]),
            72 => {
                self.told += 1;
                self.same += (found(w[1])? == w[2]) as u64;
            }
            73 => return self.end(),
            74 => {
                let want = [w[1] & 0xFF, w[2], w[1] >> 8 & 0xFF, w[1] >> 16 & 0xFF];
                for (place, (is, want)) in (ANSWER..).zip(answer.iter().zip(want)) {
                    self.due(place, *is, want);
                }
            }
            _ => return Err("not a line".into()),
        }
        Ok(())
    }

    fn end(&mut self) -> Result<(), String> {
        match self.wrong.take() {
            Some(what) => Err(what),
            None if (self.class == 0) == (self.same == self.told) => Ok(()),
            None => Err("a case that agrees, or has no class".into()),
        }
    }
}
