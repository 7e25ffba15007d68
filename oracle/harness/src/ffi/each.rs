//! The library's function for each operation, with the feature `rattle`.
//!
//! Each gives one of the numbers in [`crate::number`]. An [`Answer`] takes the value, or the address of a data abort,
//! and the descriptors read. Without a value or an address that word stays as it was, and of a call that is refused,
//! undefined or unimplemented the whole answer.
use super::{census, exception, flip, windows, Held, UNWRITTEN};
use crate::library::*;
use crate::number::{status, DONE, LAST_CHECK, UNDEFINED, UNIMPLEMENTED};
use crate::op::{Ans, Op};
use crate::Ram;

/// A core and the window lent with it, as the functions take them. Sound throughout: the core is borrowed exclusively by
/// [`Lent::new`], each other pointer is that of an array or a slice, with its own length, and the exclusive borrows keep
/// them apart.
pub struct Lent<'a> {
    core: *mut Handle,
    base: u64,
    ram: &'a mut [u8],
}

/// Functions of a number of cycles: whole frames, and what is left of the next.
macro_rules! frames {
    ($($name:ident $function:ident;)*) => {
        $(#[inline(always)]
        pub fn $name(cycles: u64) -> (u64, u64) {
            let mut left = 0;
            // Sound: a local word.
            (unsafe { $function(cycles, &mut left) }, left)
        })*
    };
}

frames! {
    frames_48000 a72_frames_48000;
    frames_44100 a72_frames_44100;
}

/// The library's function for each operation, of a core or of one of a cluster's: its number.
pub trait Calls {
    fn translate(&mut self, va: u64, kind: u64, ans: &mut Answer) -> u64;
    fn data_pa(&mut self, va: u64, ans: &mut Answer) -> u64;
    fn fetch_pa(&mut self, va: u64, ans: &mut Answer) -> u64;
    fn load(&mut self, va: u64, size: u64, ans: &mut Answer) -> u64;
    fn store(&mut self, va: u64, size: u64, value: u64, ans: &mut Answer) -> u64;
    fn fetch(&mut self, va: u64, ans: &mut Answer) -> u64;
    /// `fields`: op1, CRn, CRm, op2, register.
    fn system(&mut self, fields: [u64; 5], ans: &mut Answer) -> u64;
    fn register(&mut self, key: u64, value: u64) -> u64;
    fn level(&mut self, level: u64) -> u64;
    fn mark(&mut self, mark: u64) -> u64;
    fn general(&mut self, number: u64, value: u64) -> u64;
    fn abort(&mut self, e: &[u64; 4]) -> u64;
}

impl<'a> Lent<'a> {
    pub fn new(core: &'a mut Held, base: u64, ram: &'a mut [u8]) -> Lent<'a> {
        let core = core.handle();
        Lent { core, base, ram }
    }
}

impl Calls for Lent<'_> {
    #[inline(always)]
    fn translate(&mut self, va: u64, kind: u64, ans: &mut Answer) -> u64 {
        let ram = &*self.ram;
        unsafe { a72_translate(self.core, va, kind, ans, self.base, ram.as_ptr(), ram.len()) }
    }

    #[inline(always)]
    fn data_pa(&mut self, va: u64, ans: &mut Answer) -> u64 {
        let ram = &*self.ram;
        unsafe { a72_data_pa(self.core, va, ans, self.base, ram.as_ptr(), ram.len()) }
    }

    #[inline(always)]
    fn fetch_pa(&mut self, va: u64, ans: &mut Answer) -> u64 {
        let ram = &*self.ram;
        unsafe { a72_fetch_pa(self.core, va, ans, self.base, ram.as_ptr(), ram.len()) }
    }

    #[inline(always)]
    fn load(&mut self, va: u64, size: u64, ans: &mut Answer) -> u64 {
        let ram = &*self.ram;
        unsafe { a72_load(self.core, va, size, ans, self.base, ram.as_ptr(), ram.len()) }
    }

    #[inline(always)]
    fn store(&mut self, va: u64, size: u64, value: u64, ans: &mut Answer) -> u64 {
        let ram = &mut *self.ram;
        let (at, len) = (ram.as_mut_ptr(), ram.len());
        unsafe { a72_store(self.core, va, size, value, ans, self.base, at, len) }
    }

    #[inline(always)]
    fn fetch(&mut self, va: u64, ans: &mut Answer) -> u64 {
        let ram = &*self.ram;
        unsafe { a72_fetch(self.core, va, ans, self.base, ram.as_ptr(), ram.len()) }
    }

    #[inline(always)]
    fn system(&mut self, fields: [u64; 5], ans: &mut Answer) -> u64 {
        let [op1, crn, crm, op2, rt] = fields;
        let ram = &mut *self.ram;
        let (at, len) = (ram.as_mut_ptr(), ram.len());
        unsafe { a72_system(self.core, op1, crn, crm, op2, rt, ans, self.base, at, len) }
    }

    #[inline(always)]
    fn register(&mut self, key: u64, value: u64) -> u64 {
        unsafe { a72_register(self.core, key, value) }
    }

    #[inline(always)]
    fn level(&mut self, level: u64) -> u64 {
        unsafe { a72_level(self.core, level) }
    }

    #[inline(always)]
    fn mark(&mut self, mark: u64) -> u64 {
        unsafe { a72_mark(self.core, mark) }
    }

    #[inline(always)]
    fn general(&mut self, number: u64, value: u64) -> u64 {
        unsafe { a72_general(self.core, number, value) }
    }

    #[inline(always)]
    fn abort(&mut self, e: &[u64; 4]) -> u64 {
        unsafe { a72_abort(self.core, e) }
    }
}

/// What no call has written anything of.
const BLANK: Answer = Answer {
    value: UNWRITTEN,
    reads: UNWRITTEN,
};

/// Without a value.
fn done(n: u64, ans: &Answer) -> Ans {
    match n {
        DONE if ans.value == UNWRITTEN => Ans::Ok,
        _ => other(n, ans),
    }
}

fn value(n: u64, ans: &Answer, fault: impl Fn(u8) -> Ans) -> Ans {
    match n {
        DONE => Ans::Val(ans.value),
        _ => status(n).map_or_else(|| other(n, ans), fault),
    }
}

fn write(n: u64, ans: &Answer) -> Ans {
    status(n).map_or_else(|| done(n, ans), |s| Ans::Data(ans.value, true, s))
}

fn other(n: u64, ans: &Answer) -> Ans {
    match n {
        _ if (ans.value, ans.reads) != (UNWRITTEN, UNWRITTEN) => Ans::Panic,
        1..=LAST_CHECK => Ans::Number(n as u8),
        UNDEFINED => Ans::Undefined,
        UNIMPLEMENTED => Ans::Unimplemented,
        _ => Ans::Panic,
    }
}

/// One operation of the list, by its function.
pub(super) fn step(core: &mut Held, op: &Op, ram: &mut Ram) -> (Ans, u64) {
    use Op::*;
    match *op {
        Census(first, pages) => return (census(core, first, pages, ram), 0),
        Windows => return (windows(core, ram), 0),
        Flip(kind, user, va) => return (flip(core, kind, user, va, ram), 0),
        _ => {}
    }
    let (at, len) = (ram.bytes.lent(op.may_write_ram()), ram.bytes.len());
    // Sound: the window's bytes, which `ram` lends. Where they are sealed nobody here writes them.
    let mut lent = Lent::new(core, ram.base, unsafe { std::slice::from_raw_parts_mut(at, len) });
    call(&mut lent, op)
}

/// An operation that does not look, by its function: its answer, and the descriptors that it read.
pub(crate) fn call(lent: &mut impl Calls, op: &Op) -> (Ans, u64) {
    use Op::*;
    let quiet = |n| done(n, &BLANK);
    let mut ans = BLANK;
    let a = &mut ans;
    let answer = match *op {
        Translate(k, va) => value(lent.translate(va, k.into(), a), a, |s| Ans::Fault(va, s)),
        DataPa(va) => value(lent.data_pa(va, a), a, |_| Ans::None),
        FetchPa(va) => value(lent.fetch_pa(va, a), a, |_| Ans::None),
        Load(va, size) => value(lent.load(va, size.into(), a), a, |s| Ans::Data(a.value, false, s)),
        Store(va, size, v) => write(lent.store(va, size.into(), v, a), a),
        Fetch(va) => value(lent.fetch(va, a), a, |s| Ans::Insn(va, s)),
        Sys(op1, crn, crm, op2, rt) => {
            let fields = [op1, crn, crm, op2, rt].map(u64::from);
            write(lent.system(fields, a), a)
        }
        Reg(k, v) => quiet(lent.register(k.into(), v)),
        Level(l) => quiet(lent.level(l.into())),
        Mark(m) => quiet(lent.mark(m.into())),
        SetX(r, v) => quiet(lent.general(r.into(), v)),
        Abort(e) => quiet(lent.abort(&exception(&e))),
        _ => unreachable!("{op} is none of the list"),
    };
    let reads = match answer {
        Ans::Number(_) | Ans::Undefined | Ans::Unimplemented => 0,
        _ if op.reports() => ans.reads,
        _ => 0,
    };
    (answer, reads)
}

/// A poke by the library's own setter; whether there is one for it.
pub(super) fn set(core: &mut Held, op: &Op) -> bool {
    // Sound: a core, borrowed exclusively, and a local array.
    match *op {
        Op::PokePc(v) => unsafe { a72_set_pc(core.handle(), v) },
        Op::PokeGeneration(g) => {
            let n = unsafe { a72_set_generation(core.handle(), g.into()) };
            assert_eq!(n, DONE, "{op}");
        }
        Op::TakeBroadcast => unsafe { a72_take_pending(core.handle(), &mut [0; 2]) },
        _ => return false,
    }
    true
}

#[cfg(test)]
mod tests {
    use super::*;
    use crate::ffi::{saved, CCore};
    use crate::generate::{trace, Rng, Style};
    use crate::rust::RustCore;
    use crate::{domain, feed, place, Core};
    use pimu::aarch64::access::{mmu, Inval};
    use pimu::aarch64::sysreg::key;

    /// The core after a trace of wild states, and pimu's.
    fn after(seed: u64, n: usize) -> (CCore, RustCore) {
        let (mut core, mut rust) = (CCore::by_each(), RustCore::new());
        let mut rams = [Ram::sealable(), Ram::default()];
        for line in trace(seed, n, Style::Wild) {
            feed(&line, &mut core, &mut rams[0]);
            domain::feed(&line, &mut rust, &mut rams[1]);
        }
        assert!(core.holds(&rust));
        (core, rust)
    }

    /// What each reader by name gives is what is saved at its place.
    #[test]
    fn readers_give_what_is_saved() {
        for seed in 0..40 {
            let held = after(seed, 200).0.core;
            let (core, w) = (held.handle(), saved(&held));
            // Sound: a core, and local words and arrays.
            unsafe {
                for (name, at) in [
                    ([0, 1, 0, 0], place::SCTLR),
                    ([4, 2, 0, 2], place::TCR + 1),
                    ([6, 2, 0, 0], place::TTBR0 + 2),
                    ([0, 2, 0, 1], place::TTBR1_EL1),
                    ([4, 10, 2, 0], place::MAIR + 1),
                    ([6, 12, 0, 0], place::VBAR + 2),
                    ([0, 4, 0, 1], place::ELR),
                    ([4, 4, 0, 0], place::SPSR + 1),
                    ([6, 5, 2, 0], place::ESR + 2),
                    ([0, 6, 0, 0], place::FAR),
                    ([6, 1, 1, 0], place::SCR_EL3),
                    ([4, 1, 1, 0], place::HCR_EL2),
                    ([4, 0, 0, 0], place::VPIDR_EL2),
                    ([4, 0, 0, 5], place::VMPIDR_EL2),
                    ([0, 7, 4, 0], place::PAR_EL1),
                ] {
                    let ([op1, crn, crm, op2], mut v) = (name, 0);
                    let n = a72_get_register(core, key(3, op1, crn, crm, op2).into(), &mut v);
                    assert_eq!((n, v), (DONE, w[at]), "{name:?}");
                }
                let level = w[place::LEVEL];
                let flags = w[place::NZCV] | w[place::DAIF] | level << 2 | w[place::SPSEL];
                assert!(level > 3 || a72_get_pstate(core) == flags);
                for (is, at) in [
                    (a72_get_pc(core), place::PC),
                    (a72_get_level(core), place::LEVEL),
                    (a72_get_unprivileged(core), place::UNPRIVILEGED),
                    (a72_get_flushes(core), place::FLUSHES),
                    (a72_get_drops(core), place::DROPS),
                    (a72_get_epoch(core), place::EPOCH),
                    (a72_get_last_pa(core), place::LAST_PA),
                    (a72_get_abort_pa(core), place::ABORT_PA),
                    (a72_get_generation(core), place::GENERATION),
                    (a72_get_asid(core), place::ASID),
                ] {
                    assert_eq!(is, w[at], "{at}");
                }
                for n in 0..31 {
                    assert_eq!(a72_get_general(core, n), w[place::GENERAL + n as usize]);
                }
                for l in 0..4 {
                    assert_eq!(a72_get_hits(core, l), w[place::LEVEL_HITS + l as usize]);
                    assert_eq!(a72_get_walks(core, l), w[place::LEVEL_WALKS + l as usize]);
                }
                let (mut two, mut four, mut seven) = ([UNWRITTEN; 2], [UNWRITTEN; 4], [UNWRITTEN; 7]);
                a72_get_pending(core, &mut two);
                assert_eq!(two, w[place::PENDING..=place::PENDING_VALUE]);
                a72_get_fetch_hint(core, &mut four);
                assert_eq!(four, w[place::FETCH..=place::FETCH_PA]);
                for slot in 0..512 {
                    a72_get_hint(core, slot, &mut two);
                    assert_eq!(two, w[place::HINTS + 2 * slot as usize..][..2]);
                }
                for slot in 0..1024 {
                    a72_get_entry(core, slot, &mut seven);
                    let [tag, generation, perms, level, global, asid, pa] = seven;
                    let bits = perms | level << 8 | global << 16 | asid << 32;
                    let entry = &w[place::ENTRIES + 4 * slot as usize..][..4];
                    assert_eq!([tag, generation, bits, pa], entry);
                }
                for at in 0..place::WORDS {
                    assert_eq!(a72_word(core, at), w[at]);
                }
            }
            assert!(saved(&held) == w);
        }
    }

    /// A broadcast that is received is pimu's own invalidation.
    #[test]
    fn what_is_received_is_dropped() {
        let mut r = Rng::new(7);
        for seed in 0..150 {
            let (core, mut rust) = after(seed, 100);
            for _ in 0..6 {
                let live: Vec<u64> = (0..1024)
                    .map(|slot| mmu::record(&rust.cpu.tlb, slot).tag >> 2)
                    .collect();
                let (page, asid) = (
                    live[r.below(1024) as usize],
                    [0, 1, 2, 0x101][r.below(4) as usize],
                );
                let (kind, value, inval) = match r.below(10) {
                    0 => (1, r.wild(), Inval::All),
                    1..=4 => (3, asid, Inval::Asid(asid as u16)),
                    5 => {
                        let odd = page | r.wild() << 44;
                        (2, odd, Inval::Page(odd))
                    }
                    _ => (2, page, Inval::Page(page)),
                };
                rust.cpu.tlb.invalidate(inval);
                // Sound: a core.
                assert_eq!(unsafe { a72_receive(core.core.handle(), kind, value) }, DONE);
                assert!(core.holds(&rust), "{seed} {kind} {value:x}");
            }
            let before = core.words();
            for (kind, value) in [(0, 0), (4, 0), (3, 0x1_0000), (u64::MAX, 1)] {
                // Sound: a core.
                let n = unsafe { a72_receive(core.core.handle(), kind, value) };
                assert_eq!(n, crate::number::NAMES_NOTHING);
            }
            assert!(core.words() == before);
        }
    }
}
