//! Abort entry.
use super::bits::bit;
use super::{Bank, Regs};
use pimu::aarch64::Exception;

/// The vector's offset within the table.
pub fn vector_group(from: u32, to: u32, spsel: bool) -> u64 {
    if from != to {
        0x400
    } else if spsel {
        0x200
    } else {
        0
    }
}

/// ESR, and FAR where it is set.
pub fn syndrome(e: Exception, from: u32, to: u32, pc: u64) -> (u64, Option<u64>) {
    let il = 0x0200_0000;
    let same = (from >= to) as u64;
    let class = |c: u64| c * 0x0400_0000 + il;
    match e {
        Exception::Undefined => (il, None),
        Exception::Svc(i) => (class(0x15) + u64::from(i), None),
        Exception::Hvc(i) => (class(0x16) + u64::from(i), None),
        Exception::Smc(i) => (class(0x17) + u64::from(i), None),
        Exception::Brk(i) => (class(0x3C) + u64::from(i), None),
        Exception::InsnAbort { addr, fsc } => (class(0x20 + same) + u64::from(fsc), Some(addr)),
        // The status is or'ed in, so one with bit 6 set is not a sum.
        Exception::DataAbort { addr, write, fsc } => (
            class(0x24 + same) + ((write as u64 * 0x40) | u64::from(fsc)),
            Some(addr),
        ),
        Exception::PcAlignment => (class(0x22), Some(pc)),
    }
}

impl Regs {
    /// The exception really taken, its target level and its return address.
    fn route(&self, e: Exception) -> (Exception, u32, u64) {
        let el = self.level;
        let (scr, hcr) = (self.get(Bank::Scr, 3), self.get(Bank::Hcr, 2));
        let secure = el == 3 || !bit(scr, 0);
        let default = match el {
            0 if !secure && bit(hcr, 27) => 2,
            0 => 1,
            _ => el,
        };
        let next = self.pc.wrapping_add(4);
        match e {
            Exception::Svc(_) => (e, default, next),
            Exception::Hvc(_) if !bit(scr, 8) || (el == 1 && secure) => {
                (Exception::Undefined, default, self.pc)
            }
            Exception::Hvc(_) => (e, el.max(2), next),
            Exception::Smc(_) if bit(scr, 7) => (Exception::Undefined, default, self.pc),
            Exception::Smc(_) if el == 1 && !secure && bit(hcr, 19) => (e, 2, self.pc),
            Exception::Smc(_) => (e, 3, next),
            _ => (e, default, self.pc),
        }
    }

    pub fn abort(&mut self, e: Exception) {
        let from = self.level;
        let (e, to, ret) = self.route(e);
        let (esr, far) = syndrome(e, from, to, self.pc);
        let pstate = self.nzcv + self.daif + 4 * u64::from(from) + self.spsel as u64;
        self.bank.insert((Bank::Spsr, to), pstate);
        self.bank.insert((Bank::Elr, to), ret);
        self.bank.insert((Bank::Esr, to), esr);
        if let Some(far) = far {
            self.bank.insert((Bank::Far, to), far);
        }
        self.pc = self
            .get(Bank::Vbar, to)
            .wrapping_add(vector_group(from, to, self.spsel));
        self.level = to;
        self.spsel = true;
        self.daif = 0x3C0;
    }
}
