//! How the pages of a range are mapped.
use crate::count::{Counts, FLAT, RIGHTS, STATUS};
use crate::operation::{Access, Status};

/// A permission byte: what EL0, and what the regime's own level, may do with a page.
#[derive(Clone, Copy, Debug, PartialEq, Eq)]
pub struct Rights(pub u8);

impl Rights {
    /// EL0 may read. In the regimes of EL2 and EL3 EL0 may do nothing.
    pub const EL0_READ: Rights = Rights(1);
    /// EL0 may write.
    pub const EL0_WRITE: Rights = Rights(2);
    /// EL0 may fetch.
    pub const EL0_FETCH: Rights = Rights(4);
    /// The regime's own level, EL1, EL2 or EL3, may read.
    pub const PRIVILEGED_READ: Rights = Rights(8);
    /// The regime's own level may write.
    pub const PRIVILEGED_WRITE: Rights = Rights(16);
    /// The regime's own level may fetch.
    pub const PRIVILEGED_FETCH: Rights = Rights(32);

    /// What an access needs: by EL0, or by the regime's own level.
    pub const fn needed(access: Access, el0: bool) -> Rights {
        Rights(access as u8 * if el0 { 1 } else { 8 })
    }

    /// Whether it has all that another has.
    pub const fn has(self, other: Rights) -> bool {
        self.0 & other.0 == other.0
    }
}

/// How many pages of a range end how, each walked afresh. Every page is in one count.
#[derive(Clone, Copy, Debug, PartialEq, Eq)]
pub struct Census {
    /// Those whose walk faults, by status.
    pub statuses: [u64; 64],
    /// Those that are mapped, by permission byte ([`Rights`]).
    pub rights: [u64; 64],
    /// Those that are taken as they are: stage 1 is off, and below 2^44. Any other with stage 1 off is a fault of
    /// status 0x00.
    pub flat: u64,
}

/// Of counts that anyone may have made.
fn sum(counts: impl IntoIterator<Item = u64>) -> u64 {
    counts.into_iter().fold(0, u64::saturating_add)
}

impl Census {
    /// By the library's counts.
    pub fn of(counts: &Counts) -> Census {
        Census {
            statuses: core::array::from_fn(|i| counts[STATUS + i]),
            rights: core::array::from_fn(|i| counts[RIGHTS + i]),
            flat: counts[FLAT],
        }
    }

    /// All pages of the range. Sums end at 2^64 - 1, which none of a core's own comes near.
    pub fn total(&self) -> u64 {
        sum([self.mapped(), self.faults(), self.flat])
    }

    /// The pages that are mapped.
    pub fn mapped(&self) -> u64 {
        sum(self.rights)
    }

    /// The pages whose walk faults.
    pub fn faults(&self) -> u64 {
        sum(self.statuses)
    }

    /// The pages whose walk ends in this fault.
    pub fn with_status(&self, status: Status) -> u64 {
        self.statuses.get(usize::from(status.0)).copied().unwrap_or(0)
    }

    /// The mapped pages that allow all of this. Flat pages, which allow everything, are not among them.
    pub fn allowing(&self, rights: Rights) -> u64 {
        let by_rights = (0..).map(Rights).zip(self.rights);
        sum(by_rights.filter(|(has, _)| has.has(rights)).map(|(_, n)| n))
    }
}
