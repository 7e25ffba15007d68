// Written by tools/plain from crates/frames/src/lib.rt: change that.
//! A number of cycles as sample frames, and exactly what is left of the next frame.

/// Frames a second. A cycle is one of 1,500,000,000 a second.
#[derive(Clone, Copy, PartialEq, Eq, Debug)]
pub enum Rate {
    /// 48,000 frames a second: one is 31,250 cycles.
    Hz48000,
    /// 44,100 frames a second: one is 5,000,000 147ths of a cycle.
    Hz44100,
}

/// Whole frames, and what is left of the next: in cycles at 48,000 a second, in 147ths of a cycle at 44,100.
#[derive(Clone, Copy, PartialEq, Eq, Debug)]
pub struct Frames {
    /// Whole frames.
    pub whole: u64,
    /// What is left of the next, in the parts of a cycle that the rate counts.
    pub rest: u64,
}

impl Rate {
    /// The rate of as many frames a second, if it is one of the two.
    #[inline]
    pub fn of(frames_a_second: u64) -> Option<Rate> {
        match frames_a_second {
            48_000 => Some(Rate::Hz48000),
            44_100 => Some(Rate::Hz44100),
            _ => None,
        }
    }

    /// Frames a second.
    #[inline]
    pub fn frames_a_second(self) -> u64 {
        match self {
            Rate::Hz48000 => 48_000,
            Rate::Hz44100 => 44_100,
        }
    }

    /// The parts of a cycle that `Frames::rest` counts: whole cycles, 1, or 147ths of one.
    #[inline]
    pub fn parts_of_a_cycle(self) -> u64 {
        match self {
            Rate::Hz48000 => 1,
            Rate::Hz44100 => 147,
        }
    }

    /// A number of cycles as whole frames and what is left of the next. Every number of cycles has its answer.
    #[inline]
    pub fn frames(self, total: u64) -> Frames {
        match self {
            Rate::Hz48000 => Frames {
                whole: total / 31_250,
                rest: total % 31_250,
            },
            // 147 times the total may not fit: each 5,000,000 cycles, 147 frames, are taken away first
            Rate::Hz44100 => {
                let part = total % 5_000_000 * 147;
                Frames {
                    whole: total / 5_000_000 * 147 + part / 5_000_000,
                    rest: part % 5_000_000,
                }
            }
        }
    }
}
