//! Translations that need no RAM: for an emulator whose RAM is not at hand, and is asked for where tables are walked.
use crate::core::Core;
use crate::operation::{Access, Status};
use crate::stage1::tlb::access::Kind;
use crate::stage1::tlb::hint::FetchHint;

impl Core {
    /// [`Core::translate`] where nothing is walked: by a hint, with stage 1 off, or by an entry of the cache; of a fault the
    /// status. `None` where the tables are to be walked, or the level is above 3: nothing was changed, and `translate` does
    /// it all.
    #[inline(always)]
    pub fn translate_at_hand(&mut self, va: u64, access: Access) -> Option<Result<u64, Status>> {
        let kind = match access {
            Access::Read => Kind::Read,
            Access::Write => Kind::Write,
            Access::Fetch => Kind::Fetch,
        };
        let privilege = self.core.privilege;
        match self.core.tlb.by_hint(privilege, va, kind) {
            Some(pa) if privilege.level <= 3 => {
                self.answer.reads = 0;
                Some(Ok(pa))
            }
            _ => self.past_hint(va, kind),
        }
    }

    /// The physical address that [`Core::fetch`] reads, where nothing is walked; the fetch hint becomes its page. `None` as
    /// for [`Core::translate_at_hand`].
    #[inline(always)]
    pub fn fetch_at_hand(&mut self, va: u64) -> Option<Result<u64, Status>> {
        let level = self.core.privilege.level;
        let answer = match self.core.tlb.by_fetch_hint(level, va) {
            Some(pa) if level <= 3 => {
                self.answer.reads = 0;
                Some(Ok(pa))
            }
            _ => self.past_hint(va, Kind::Fetch),
        };
        if let Some(Ok(pa)) = answer {
            self.core.tlb.fetch = Some(FetchHint::new(va, level, pa));
        }
        answer
    }

    #[inline(always)]
    fn past_hint(&mut self, va: u64, kind: Kind) -> Option<Result<u64, Status>> {
        if self.core.privilege.level > 3 {
            return None;
        }
        let answer = self.core.at_hand(0, &[], va, kind)?;
        self.answer.reads = 0;
        Some(answer.map_err(|fault| Status(fault.fsc)))
    }
}

#[cfg(all(test, feature = "alloc"))]
mod tests {
    use crate::{Access, Core, Ram, Stop, SystemOperation, Width, registers};

    /// One core is asked at hand first, the other never: all that they hold is the same.
    #[test]
    fn it_is_the_first_half_of_the_operation() {
        let mut bytes = alloc::vec![0; 0x1_0000];
        let mut ram = Ram::new(0x4000_0000, &mut bytes);
        for (at, word) in [
            (0, 0x4000_1003),
            (0x1000, 0x4000_2003),
            (0x2008, 0x4000_8403),
            (0x2010, 0x4000_9483),
        ] {
            assert!(ram.write_u64(0x4000_0000 + at, word));
        }
        let mut core = Core::new();
        core.write_register(registers::TCR_EL1, 25).unwrap();
        core.write_register(registers::TTBR0_EL1, 0x4000_0000).unwrap();
        core.set_level(3).unwrap();
        let mut other = core.clone();
        for step in 0..400u64 {
            let va = [0x1000, 0x2000, 0x3000, 1 << 44][(step * 7 % 4) as usize] + step % 16 * 8;
            let access = [Access::Read, Access::Write, Access::Fetch][(step % 3) as usize];
            match core.translate_at_hand(va, access) {
                Some(answer) => {
                    let whole = other.translate(&ram, va, access);
                    assert_eq!(answer.ok(), whole.ok());
                    if let (Err(status), Err(Stop::Fault(fault))) = (answer, whole) {
                        assert_eq!(status, fault.status);
                    }
                }
                None => assert_eq!(
                    core.translate(&ram, va, access),
                    other.translate(&ram, va, access)
                ),
            }
            match core.fetch_at_hand(va) {
                Some(answer) => assert_eq!(answer.ok(), other.fetch_pa(&ram, va).unwrap()),
                None => assert_eq!(core.fetch_pa(&ram, va), other.fetch_pa(&ram, va)),
            }
            assert_eq!(core.report(), other.report());
            for core in [&mut core, &mut other] {
                match step {
                    50 => core.write_register(registers::SCTLR_EL1, 1).unwrap(),
                    60 | 200 => core.set_level(1).unwrap(),
                    120 => core.set_level(0).unwrap(),
                    250 => core.set_unprivileged(true).unwrap(),
                    300 => core.system(&mut ram, SystemOperation::TLBI_VMALLE1).unwrap(),
                    _ => {}
                }
            }
            assert!(core == other, "after step {step}");
        }
        assert!(core.counters().hits() > 0 && core.load(&ram, 0x1000, Width::Byte).is_err());
    }
}
