// Written by tools/plain from crates/cpu/src/inspect.rt: change that.
//! Operations that look at registers and RAM and change neither: what they find, beside the call's reply.

use crate::stage1::census::count;
use crate::stage1::cpu::call::Reply;
use crate::stage1::cpu::{Core, check};

/// The 129 counts of a census, all 0 where it is refused, and its reply.
#[derive(Clone, Debug, PartialEq, Eq)]
pub struct Censused {
    pub counts: [u64; 129],
    pub reply: Reply,
}

impl Core {
    /// The census of so many pages from the page of first, at the core's level.
    #[inline]
    pub fn census(&self, base: u64, ram: &[u8], first: u64, pages: u64) -> Censused {
        let level = self.privilege.level;
        let mut counts = [0; 129];
        if let Err(check) = check::census(level, base, ram.len() as u64, first, pages) {
            let reply = Reply::from(check);
            return Censused { counts, reply };
        }
        count::count(self.bank(), self.regime(), first, pages, base, ram, &mut counts);
        Censused {
            counts,
            reply: Reply::Done,
        }
    }
}
