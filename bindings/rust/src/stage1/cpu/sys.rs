// Written by tools/plain from crates/cpu/src/sys.rt: change that.
//! System operations on the core. The descriptors that one reads are added to its `work`.

use crate::stage1::cpu::Core;
use crate::stage1::exception::kind::{Exception, Stop};
use crate::stage1::system::decode::{AtForm, Encoding, SysOp};
use crate::stage1::system::{decode, par, tlbi};
use crate::stage1::tlb::work::Work;
use crate::stage1::word::ram::Width;

impl Core {
    /// AT: a fresh walk into PAR_EL1.
    #[inline(always)]
    pub fn at(&mut self, base: u64, ram: &[u8], form: AtForm, va: u64, work: &mut Work) {
        let mair = self.sys.mair[form.regime.index()];
        let (par, reads) = par::at(&self.control, mair, form, va, base, ram);
        self.sys.par_el1 = par;
        work.add_reads(reads);
    }

    /// TLBI; the Inner Shareable forms reach the other cores.
    #[inline]
    pub fn tlbi(&mut self, e: Encoding, x: u64) {
        let what = tlbi::tlbi(&self.control, e, x);
        self.tlb.invalidate(what);
        if e.crm == 3 {
            self.tlb.broadcast(what);
        }
    }

    /// The n stores of a zeroing from va on, up to the first that stops.
    #[inline]
    fn zero_from(&mut self, base: u64, ram: &mut [u8], va: u64, n: u64, work: &mut Work) -> Result<(), Stop> {
        if n == 0 {
            return Ok(());
        }
        self.write(base, ram, va, Width::Double, 0, work)?;
        self.zero_from(base, ram, va.wrapping_add(8), n - 1, work)
    }

    /// DC ZVA: 64 bytes, aligned.
    #[inline]
    pub fn zva(&mut self, base: u64, ram: &mut [u8], x: u64, work: &mut Work) -> Result<(), Stop> {
        self.zero_from(base, ram, x & !63, 8, work)
    }

    /// A system operation.
    #[inline]
    pub fn sys(&mut self, base: u64, ram: &mut [u8], e: Encoding, work: &mut Work) -> Result<(), Stop> {
        let x = self.reg(e.rt);
        match decode::decode(self.privilege.level, e) {
            SysOp::At(form) => self.at(base, ram, form, x, work),
            SysOp::Tlbi => self.tlbi(e, x),
            SysOp::Zva => return self.zva(base, ram, x, work),
            SysOp::Nothing => {}
            SysOp::Undefined => return Err(Stop::Exception(Exception::Undefined)),
            SysOp::Unimplemented => return Err(Stop::Unimplemented),
        }
        Ok(())
    }
}
