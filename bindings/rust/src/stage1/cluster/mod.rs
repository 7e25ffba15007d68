// Written by tools/plain from crates/cluster/src/lib.rt: change that.
//! Four cores over one RAM, each with registers and cache of its own. The RAM is lent to each call. What a core leaves
//! pending for others, the other three carry out before its call ends.

use crate::stage1::cpu::Core;
use crate::stage1::cpu::call::{Call, Reply};
use crate::stage1::cpu::check::{self, Check};
use crate::stage1::tlb::Inval;
use crate::stage1::tlb::work::Work;

/// Four cores, numbers 0 to 3. One call is made at a time.
#[derive(Debug, PartialEq, Eq)]
pub struct Cluster {
    pub(crate) cores: [Core; 4],
}

impl Cluster {
    /// Four cores after reset.
    #[inline]
    pub fn new() -> Self {
        Cluster {
            cores: core::array::from_fn(|_| Core::new()),
        }
    }

    /// The core that has a number; `Check::Core` above 3.
    #[inline]
    pub fn core(&self, n: u64) -> Result<&Core, Check> {
        Ok(&self.cores[check::core(n)?])
    }

    /// A core in the place of the one that has a number; `Check::Core` above 3. It keeps what it has pending.
    #[inline]
    pub fn put(&mut self, n: u64, core: &Core) -> Result<(), Check> {
        let i = check::core(n)?;
        self.cores[i] = core.clone();
        Ok(())
    }

    /// What core i asks for goes to the other three, and its mark is cleared.
    #[cold]
    #[inline(never)]
    fn share(&mut self, i: usize, what: Inval) {
        self.cores[i].tlb.broadcast = None;
        for j in 0..4 {
            if j != i {
                self.cores[j].tlb.invalidate(what);
            }
        }
    }

    /// What core i has pending goes to the other three, and its mark is cleared. A number above 3 does nothing.
    #[inline(always)]
    pub fn deliver(&mut self, i: usize) {
        if i < 4 {
            if let Some(what) = self.cores[i].tlb.broadcast {
                self.share(i, what);
            }
        }
    }

    /// A call on the core that has a number; above 3 it is refused as 8, before every other check. Where it is not
    /// refused, whatever the core has pending after it is delivered. The descriptors that it reads are added to `work`.
    #[inline]
    pub fn step(&mut self, n: u64, base: u64, ram: &mut [u8], call: Call, work: &mut Work) -> Reply {
        let i = match check::core(n) {
            Ok(i) => i,
            Err(check) => return Reply::from(check),
        };
        let reply = self.cores[i].step(base, ram, call, work);
        if !reply.refuses() {
            self.deliver(i);
        }
        reply
    }
}
