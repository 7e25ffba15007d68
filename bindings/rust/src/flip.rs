//! The bit of RAM whose flip changes a translation, and answers with nothing cached.
use crate::answer::{Fault, Stop};
use crate::core::Core;
use crate::operation::{Access, Status, View};
use crate::ram::Ram;
use crate::stage1::cpu::check;
use crate::stage1::fault;
use crate::stage1::flip::{self, FlippedBit, Question};
use crate::stage1::tlb::access::Kind;

impl Access {
    /// The core's own.
    fn kind(self) -> Kind {
        match self {
            Access::Read => Kind::Read,
            Access::Write => Kind::Write,
            Access::Fetch => Kind::Fetch,
        }
    }
}

/// An answer, a fault with what was asked.
fn told(answer: Result<u64, fault::Fault>, access: Access, address: u64) -> Result<u64, Stop> {
    answer.map_err(|fault| {
        let status = Status(fault.fsc);
        Stop::Fault(Fault {
            access,
            address,
            status,
        })
    })
}

impl Core {
    /// Which bit of RAM, the other way, changes the answer to an access at `va` with nothing cached: of the first
    /// such descriptor, in the order in which the walk reads them, the lowest such bit. `None` where no single bit
    /// anywhere in RAM changes it. A change is another address, another status, or a fault where there was an
    /// address, or none.
    ///
    /// The answer is [`Self::fresh_answer`]: neither the cache nor the mark counts. Each read of the word sees it
    /// flipped, also where one table is read at two levels. RAM is written while this runs, and in the end is as it
    /// was; core and report stay.
    ///
    /// ```
    /// use a72::{registers, Access, Core, FlippedBit, Level, Ram, Status, Stop, View};
    ///
    /// let mut bytes = vec![0; 0x4000];
    /// let mut ram = Ram::new(0x4000_0000, &mut bytes);
    /// ram.write_u64(0x4000_1000, 0x4000_2000 | 3); // level 1, entry 0: a table
    /// ram.write_u64(0x4000_2000, 0x4000_3000 | 3); // level 2, entry 0: a table
    /// ram.write_u64(0x4000_3008, 0x4000_8000 | 0x403); // level 3, entry 1: a page, accessed
    /// let mut core = Core::new();
    /// core.write_register(registers::TCR_EL1, 25)?; // 39 bits of address, pages of 4 KiB
    /// core.write_register(registers::TTBR0_EL1, 0x4000_1000)?;
    /// core.write_register(registers::SCTLR_EL1, 1)?; // stage 1 on
    /// core.set_level(Level::EL1)?;
    ///
    /// // Bit 0 says that there is a descriptor: already that of the first table matters.
    /// let found = core.flip(&mut ram, 0x1234, Access::Read, View::Privileged)?;
    /// assert_eq!(found, Some(FlippedBit { pa: 0x4000_1000, bit: 0 }));
    ///
    /// // A board that has this cell bad does not find the page: a translation fault of level 1.
    /// ram.flip(found.unwrap());
    /// let Err(Stop::Fault(fault)) = core.translate(&ram, 0x1234, Access::Read) else {
    ///     panic!("the table is gone");
    /// };
    /// assert_eq!(fault.status, Status(0x05));
    ///
    /// // With stage 1 off, as at EL3 here, no descriptor is read.
    /// core.set_level(Level::EL3)?;
    /// assert_eq!(core.flip(&mut ram, 0x1234, Access::Read, View::Privileged)?, None);
    /// # Ok::<(), Stop>(())
    /// ```
    pub fn flip(
        &self,
        ram: &mut Ram,
        va: u64,
        access: Access,
        view: View,
    ) -> Result<Option<FlippedBit>, Stop> {
        let user = view == View::User;
        flip::flip(&self.core, ram.base, ram.bytes, va, access.kind(), user)
            .map_err(|missed| Stop::Refused(missed.into()))
    }

    /// The physical address of `va` for an access of this kind with nothing cached, by registers and RAM as they are,
    /// in the regime of the present level, which EL0 and EL1 share, and by the rights of a view. Neither the cache
    /// nor the mark counts, and nothing changes.
    pub fn fresh_answer(&self, ram: &Ram, va: u64, access: Access, view: View) -> Result<u64, Stop> {
        let answer = self.question(ram, va, access, view)?.answer(ram.base, ram.bytes);
        told(answer, access, va)
    }

    /// What [`Self::fresh_answer`] becomes with a bit of RAM the other way. A bit of a word that does not lie wholly
    /// in RAM, or above 63, changes nothing. RAM is written while this runs, and in the end is as it was.
    ///
    /// ```
    /// use a72::{registers, Access, Core, FlippedBit, Level, Ram, Stop, View};
    ///
    /// let mut bytes = vec![0; 0x3000];
    /// let mut ram = Ram::new(0x4000_0000, &mut bytes);
    /// ram.write_u64(0x4000_1000, 0x4000_0000 | 0x401); // level 1, entry 0: a block of 1 GiB, accessed
    /// let mut core = Core::new();
    /// core.write_register(registers::TCR_EL1, 25)?; // 39 bits of address, pages of 4 KiB
    /// core.write_register(registers::TTBR0_EL1, 0x4000_1000)?;
    /// core.write_register(registers::SCTLR_EL1, 1)?; // stage 1 on
    /// core.set_level(Level::EL1)?;
    ///
    /// assert_eq!(core.fresh_answer(&ram, 0x1234, Access::Read, View::Privileged)?, 0x4000_1234);
    /// // Bit 31 is one of the block's address.
    /// let cell = FlippedBit { pa: 0x4000_1000, bit: 31 };
    /// assert_eq!(core.fresh_answer_with(&mut ram, 0x1234, Access::Read, View::Privileged, cell)?, 0xC000_1234);
    /// # Ok::<(), Stop>(())
    /// ```
    pub fn fresh_answer_with(
        &self,
        ram: &mut Ram,
        va: u64,
        access: Access,
        view: View,
        cell: FlippedBit,
    ) -> Result<u64, Stop> {
        let question = self.question(ram, va, access, view)?;
        told(question.answer_with(ram.base, ram.bytes, cell), access, va)
    }

    /// What is asked, where the call misses no check.
    fn question(&self, ram: &Ram, va: u64, access: Access, view: View) -> Result<Question, Stop> {
        let level = self.core.privilege.level;
        check::with_ram(level, ram.base, ram.bytes.len() as u64)
            .map_err(|missed| Stop::Refused(missed.into()))?;
        Ok(Question::new(&self.core, va, access.kind(), view == View::User))
    }
}
