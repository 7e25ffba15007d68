//! A number of cycles as sample frames.
use crate::raw;
use plain::Frames;

/// Frames a second. A cycle is one of 1,500,000,000 a second.
#[derive(Clone, Copy, Debug, PartialEq, Eq)]
pub enum Rate {
    /// 48,000 frames a second: one is 31,250 cycles.
    Hz48000,
    /// 44,100 frames a second: one is 5,000,000 147ths of a cycle.
    Hz44100,
}

impl Rate {
    fn plain(self) -> plain::Rate {
        match self {
            Rate::Hz48000 => plain::Rate::Hz48000,
            Rate::Hz44100 => plain::Rate::Hz44100,
        }
    }

    /// The rate of as many frames a second, if it is one of the two.
    pub fn of(frames_a_second: u64) -> Option<Rate> {
        let rate = plain::Rate::of(frames_a_second)?;
        Some(match rate {
            plain::Rate::Hz48000 => Rate::Hz48000,
            plain::Rate::Hz44100 => Rate::Hz44100,
        })
    }

    /// Frames a second.
    pub fn frames_a_second(self) -> u64 {
        self.plain().frames_a_second()
    }

    /// The parts of a cycle that `Frames::rest` counts: whole cycles, 1, or 147ths of one.
    pub fn parts_of_a_cycle(self) -> u64 {
        self.plain().parts_of_a_cycle()
    }

    /// A number of cycles as whole frames and what is left of the next. Every number of cycles has its answer.
    #[inline]
    pub fn frames(self, total: u64) -> Frames {
        let (whole, rest) = match self {
            Rate::Hz48000 => raw::frames_48000(total),
            Rate::Hz44100 => raw::frames_44100(total),
        };
        Frames { whole, rest }
    }
}
