//! What the tables say of an address now, by the core's registers: no cache is asked.
use crate::answer::Stop;
use crate::census::Rights;
use crate::core::Core;
use crate::operation::Status;
use crate::ram::Ram;
use crate::stage1::cpu::check;
use crate::stage1::walk::fresh::Fresh;

/// How an address is mapped in the regime of the core's level.
#[derive(Clone, Copy, Debug, PartialEq, Eq)]
pub enum Walk {
    /// Stage 1 is off: the physical address is the virtual one, without its tag.
    Flat(u64),
    /// A block or page.
    Mapped(Mapping),
    /// The walk ends in a fault.
    Fault(Status),
}

/// What a walk found.
#[derive(Clone, Copy, Debug, PartialEq, Eq)]
pub struct Mapping {
    /// The physical address.
    pub pa: u64,
    /// What EL0 and the regime's own level may do.
    pub rights: Rights,
    /// The level of the block or page, 1 to 3.
    pub level: u8,
    /// Whether it is for every ASID.
    pub global: bool,
    /// Its descriptor.
    pub descriptor: u64,
}

impl Core {
    /// The walk of `va` in the regime of the present level, by registers and RAM as they are: the cache is neither
    /// asked nor filled, nothing is counted, and rights are shown, not judged.
    pub fn walk(&self, ram: &Ram, va: u64) -> Result<Walk, Stop> {
        let level = self.core.privilege.level;
        check::with_ram(level, ram.base, ram.bytes.len() as u64)
            .map_err(|missed| Stop::Refused(missed.into()))?;
        Ok(
            match self
                .core
                .bank()
                .fresh(self.core.regime(), va, ram.base, ram.bytes)
            {
                Fresh::Flat(pa) => Walk::Flat(pa),
                Fresh::Ended(Err(status)) => Walk::Fault(Status(status)),
                Fresh::Ended(Ok(leaf)) => Walk::Mapped(Mapping {
                    pa: leaf.oa,
                    rights: Rights(leaf.perms),
                    level: leaf.level,
                    global: leaf.global,
                    descriptor: leaf.desc,
                }),
            },
        )
    }
}
