//! The proved core, what it is told of pimu's registers, and what pimu's other files read beside it.
use std::{fmt, io};

use super::record::Recording;
use super::shape::{told, Shape};
use super::{data_slot, stage1_on, Kind, Status, FSC_EXTERNAL};
use crate::aarch64::sysreg::SysRegs;
use a72::{registers, Broadcast, Core, Counters, Level, Ram, Stop, SystemOperation};

/// What a `TLBI` drops.
#[derive(Clone, Copy, Debug, PartialEq, Eq)]
pub enum Inval {
    All,
    /// The 4 KiB page `VA[55:12]`, in every regime and for every ASID, which
    /// covers what any by-VA `TLBI` asks for.
    Page(u64),
    /// What is not global, for this ASID.
    Asid(u16),
}

impl From<Inval> for Broadcast {
    fn from(what: Inval) -> Broadcast {
        match what {
            Inval::All => Broadcast::All,
            Inval::Page(page) => Broadcast::Page(page),
            Inval::Asid(asid) => Broadcast::Asid(asid),
        }
    }
}

/// A page that no walk succeeds on: bits 55 to 48 of an address in a range are all zero or all one. To drop it is to
/// drop every hint and no entry.
const NOWHERE: Broadcast = Broadcast::Page(0x55 << 36);

/// What was asked of the TLB since the core was last told of pimu's registers.
#[derive(Clone, Copy, PartialEq, Eq, PartialOrd, Ord)]
enum Asked {
    Nothing,
    /// [`Tlb::retag`]: the hints drop.
    Retag,
    /// [`Tlb::flush`]: all drops.
    Flush,
}

const EXTERNAL: Status = FSC_EXTERNAL as Status;

/// The status of a fault. Nothing else stops a translation: the level is one of four, and RAM ends below 2^64.
fn status(stop: Stop) -> Status {
    match stop {
        Stop::Fault(fault) => fault.status.0.into(),
        stop => panic!("a translation was {stop}"),
    }
}

/// The proved core, and what pimu's other files read beside it.
#[derive(Clone)]
pub struct Tlb {
    core: Core,
    /// The registers as the core was last told them.
    told: Shape,
    /// What it is yet to be told, and the invalidations that came after that.
    asked: Asked,
    late: Vec<Inval>,
    /// Whether the hints may be asked past the core: nothing waits, and nothing is recorded.
    hints: bool,
    /// 1 where stage 1 is on at EL0 to EL3, by the registers told: what an answer at hand adds to the hits.
    on: [u64; 4],
    recording: Recording,
    pub hits: u64,
    pub walks: u64,
    /// Whole flushes, those of them a translation register's write made,
    /// and pages a `TLBI` dropped.
    pub flushes: u64,
    pub reshaped: u64,
    pub drops: u64,
    /// Set by a broadcast `TLBI`: what the other cores' TLBs are to drop.
    pub broadcast: Option<Inval>,
    /// Counts flushes, so a loop can tell that a translation it looked up is
    /// still the one in force.
    pub epoch: u64,
}

impl Default for Tlb {
    fn default() -> Self {
        Self::new()
    }
}

impl Tlb {
    pub fn new() -> Tlb {
        Tlb {
            core: Core::new(),
            told: Shape::of(&SysRegs::new(0)),
            asked: Asked::Nothing,
            late: Vec::new(),
            hints: true,
            on: [0; 4],
            recording: Recording::default(),
            hits: 0,
            walks: 0,
            flushes: 0,
            reshaped: 0,
            drops: 0,
            broadcast: None,
            epoch: 0,
        }
    }

    /// The proved core; `None` where it is yet to be told of a register write, which it is before the next access.
    pub fn core(&self) -> Option<&Core> {
        (self.asked == Asked::Nothing).then_some(&self.core)
    }

    /// From now on write what the core is asked as a trace for `a72`, and RAM as the next access finds it beside it
    /// (`PATH.ram`). It begins with a fresh core: what the TLB held and counted is gone.
    pub fn record(&mut self, path: &str) -> io::Result<()> {
        self.recording = Recording::to(path)?;
        self.core = Core::new();
        (self.hits, self.walks) = (0, 0);
        self.told = Shape::of(&SysRegs::new(0));
        self.on = [0; 4];
        self.asked = Asked::Nothing;
        self.late.clear();
        self.hints = false;
        Ok(())
    }

    /// The recording ends here, and its last lines are written.
    pub fn end_recording(&mut self) -> io::Result<()> {
        self.hints = self.asked == Asked::Nothing;
        self.recording.end()
    }

    /// In a recording: someone other than this core wrote to RAM, and the eight bytes at `pa` are now these.
    pub fn poked(&mut self, pa: u64, value: u64) {
        self.recording.line(format_args!("poke {pa:x} {value:x}"));
    }

    /// [`Cpu::fetch`]'s hint, for a diagnostic wanting the physical PC.
    pub fn fetch_hint(&self) -> Option<(u64, u32, u64)> {
        let hint = self.core()?.fetch_hint()?;
        Some((hint.page, hint.level.into(), hint.pa))
    }

    /// No code page is kept: a run loop asks [`Cpu::fetch_pa`].
    #[inline(always)]
    pub fn code_page(&self, _va: u64, _el: u32) -> Option<(u64, usize, usize)> {
        None
    }

    /// See [`Self::code_page`].
    pub fn remember_code(&mut self, _va: u64, _el: u32, _pa_page: u64, _code: usize, _gen: usize) {}

    /// All drops, once the registers are told that this comes of.
    pub fn flush(&mut self) {
        self.flushes += 1;
        self.waits(Asked::Flush);
    }

    /// The EL1&0 regime's ASID or tables moved: the hints drop, the entries stay. The core reads the ASID in its own
    /// registers.
    pub fn retag(&mut self, _asid: u16) {
        self.waits(Asked::Retag);
    }

    fn waits(&mut self, asked: Asked) {
        self.epoch += 1;
        self.asked = self.asked.max(asked);
        self.hints = false;
    }

    /// What a `TLBI` asks for, this core's own or another's.
    pub fn invalidate(&mut self, what: Inval) {
        match what {
            Inval::All => self.flushes += 1,
            Inval::Page(_) => self.drops += 1,
            Inval::Asid(_) => {}
        }
        self.epoch += 1;
        if self.asked == Asked::Nothing {
            self.receive(what);
        } else {
            self.late.push(what);
        }
    }

    fn receive(&mut self, what: Inval) {
        self.core.receive(what.into());
        self.recording.invalidated(what, &self.core);
    }

    fn drop_hints(&mut self) {
        self.core.receive(NOWHERE);
        self.recording.hints_dropped(&self.core);
    }

    /// Ask the other cores to drop `what` too, along with anything asked
    /// since they last looked.
    pub fn broadcast(&mut self, what: Inval) {
        self.broadcast = Some(match self.broadcast {
            None => what,
            Some(prev) if prev == what => what,
            Some(_) => Inval::All,
        });
    }

    /// Whether the core is to be told of registers before an answer without a walk, or is always asked as a whole.
    #[inline(always)]
    pub(super) fn lags(&self, s: &SysRegs, el: u32) -> bool {
        !self.hints || !self.told.answers(s, el.max(1))
    }

    /// Whether level and mark are those that the core was told.
    #[inline(always)]
    pub(super) fn knows(&self, el: u32, mark: bool) -> bool {
        self.core.level() == u64::from(el) && self.core.unprivileged() == mark
    }

    /// Tell the core what pimu's registers, level and mark are, where that is not what it was told.
    #[inline(always)]
    pub(super) fn tell(&mut self, s: &SysRegs, el: u32, mark: bool) {
        if !self.hints || !self.told.is(s) {
            self.tell_registers(s);
        }
        self.tell_privilege(el, mark);
    }

    /// The same, but of registers those that `AT` of this regime reads.
    #[inline(always)]
    pub(super) fn tell_at(&mut self, s: &SysRegs, el: u32, mark: bool, regime: u8) {
        if !self.hints || !self.told.walks(s, regime.into()) {
            self.tell_registers(s);
        }
        self.tell_privilege(el, mark);
    }

    #[inline(always)]
    pub(super) fn tell_privilege(&mut self, el: u32, mark: bool) {
        if self.core.level() != u64::from(el) {
            self.tell_level(el);
        }
        if self.core.unprivileged() != mark {
            self.tell_mark(mark);
        }
    }

    /// Tell the registers by writes, then what was asked meanwhile, in this order. Whether the core is to be asked as a
    /// whole: in a recording, and where its hints were not asked before and may be there still.
    #[cold]
    #[inline(never)]
    pub(super) fn tell_registers(&mut self, s: &SysRegs) -> bool {
        let had_hints = self.hints || self.asked != Asked::Nothing;
        if self.asked != Asked::Nothing || !self.told.is(s) {
            self.write_registers(s);
        }
        self.hints = !self.records();
        !had_hints || self.records()
    }

    fn write_registers(&mut self, s: &SysRegs) {
        let before = self.core.counters();
        if self.core.level() == 0 {
            self.tell_level(1); // EL0 writes none
        }
        for (key, value) in told(s) {
            if self.core.register(key) != Some(value) {
                self.core
                    .write_register(key, value)
                    .expect("the core keeps the register");
                self.recording
                    .line(format_args!("reg {:x} {value:x}", u64::from(key)));
            }
        }
        self.told = Shape::of(s);
        self.on = [1, 1, 2, 3].map(|regime| stage1_on(s, regime).into());
        let Counters { flushes, epoch, .. } = self.core.counters();
        match std::mem::replace(&mut self.asked, Asked::Nothing) {
            Asked::Flush if flushes == before.flushes => self.receive(Inval::All),
            Asked::Retag if epoch == before.epoch => self.drop_hints(),
            _ => {}
        }
        for what in std::mem::take(&mut self.late) {
            self.receive(what);
        }
    }

    #[inline(never)]
    fn tell_level(&mut self, el: u32) {
        self.core
            .set_level(Level::from(u64::from(el)))
            .expect("pimu's level is 0 to 3");
        self.recording.line(format_args!("level {el:x}"));
    }

    #[inline(never)]
    fn tell_mark(&mut self, mark: bool) {
        self.core.set_unprivileged(mark).expect("pimu's level is 0 to 3");
        self.recording.line(format_args!("mark {}", u8::from(mark)));
    }

    /// One translation by the core, where no table is to be read and no hint serves: an entry answers, which counts, or
    /// stage 1 is off.
    #[inline(always)]
    pub(super) fn at_hand(&mut self, va: u64, kind: Kind) -> Option<Result<u64, Status>> {
        let answer = self.core.translate_at_hand(va, kind.into())?;
        self.hits += self.on[self.core.level() as usize & 3];
        Some(answer.map_err(|fsc| fsc.0.into()))
    }

    /// The same of a fetch, and the core's hint.
    #[inline(always)]
    pub(super) fn fetch_at_hand(&mut self, va: u64) -> Option<Result<u64, Status>> {
        let answer = self.core.fetch_at_hand(va)?;
        self.hits += self.on[self.core.level() as usize & 3];
        Some(answer.map_err(|fsc| fsc.0.into()))
    }

    /// One translation by the core.
    #[inline]
    pub(super) fn translate(&mut self, ram: &Ram, va: u64, kind: Kind) -> Result<u64, Status> {
        let answer = self.core.translate(ram, va, kind.into());
        self.recording.reads(self.core.report().reads);
        self.count();
        answer.map_err(status)
    }

    /// Where a fetch by the core goes, which then has a hint of it, whether RAM holds the instruction or the bus has it
    /// elsewhere.
    pub(super) fn fetch(&mut self, ram: &Ram, va: u64) -> Result<u64, Status> {
        let answer = self.core.fetch(ram, va);
        self.recording.reads(self.core.report().reads);
        self.count();
        match answer.map_err(status) {
            Ok(_) | Err(EXTERNAL) => Ok(self.core.fetch_hint().map_or(0, |hint| hint.pa) | (va & 0xFFF)),
            Err(fsc) => Err(fsc),
        }
    }

    /// `AT` by the core: what it leaves in `PAR_EL1`.
    #[inline(always)]
    pub(super) fn at(&mut self, ram: &mut Ram, operation: SystemOperation, va: u64) -> u64 {
        if self.records() {
            self.note_at(ram, operation, va);
        }
        self.core.set_general(0, va).expect("a general register");
        self.core.system(ram, operation).expect("exec judged the level");
        self.recording.reads(self.core.report().reads);
        self.core.register(registers::PAR_EL1).unwrap_or(0)
    }

    #[cold]
    #[inline(never)]
    fn note_at(&mut self, ram: &Ram, operation: SystemOperation, va: u64) {
        let SystemOperation {
            op1,
            crn,
            crm,
            op2,
            rt,
        } = operation;
        self.recording.line(format_args!("x 0 {va:x}"));
        self.note(ram, format_args!("sys {op1:x} {crn:x} {crm:x} {op2:x} {rt:x}"));
    }

    /// Whether accesses are recorded.
    #[inline(always)]
    pub(super) fn records(&self) -> bool {
        self.recording.is_on()
    }

    /// Whether hints are asked past the core. Not in a recording.
    #[inline(always)]
    pub(super) fn has_hints(&self) -> bool {
        self.hints
    }

    pub(super) fn note(&mut self, ram: &Ram, line: fmt::Arguments) {
        self.recording.access(ram, line);
    }

    /// The core's counters, where pimu's other files read them.
    #[inline]
    fn count(&mut self) {
        let counters = self.core.counters();
        (self.hits, self.walks) = (counters.hits(), counters.walks());
    }

    /// The physical page of the data hint of this key, if there is one.
    #[inline(always)]
    pub(super) fn hinted(&self, key: u64, kind: Kind) -> Option<u64> {
        let page = self.core.hint_page(data_slot(key, kind), key)?;
        self.hints.then_some(page)
    }

    /// The physical page of the fetch hint, if it is of this page and level.
    #[inline(always)]
    pub(super) fn fetch_hinted(&self, va: u64, el: u32) -> Option<u64> {
        let hint = self.core.fetch_hint()?;
        let differs = (hint.page ^ (va & !0xFFF)) | u64::from(u32::from(hint.level) ^ el);
        (self.hints && differs == 0).then_some(hint.pa)
    }
}
