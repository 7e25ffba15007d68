//! The library's side: its function for each operation, on a core.
use super::checked::{flipped_of, met_of};
use super::{both, fault, repeat, summed, told, Work, DONE, STORED};
use crate::census::COUNTS;
use crate::ffi::each::{frames_44100, frames_48000, Calls, Lent};
use crate::ffi::{Held, Looks};
use crate::library::Answer;
use crate::Ram;
use a72::Rate;
use std::hint::black_box;

pub fn run(work: Work, args: [u64; 2], core: &mut Held, ram: &mut Ram, n: usize) -> u64 {
    let base = black_box(ram.base);
    if let Work::Census(pages) = work {
        let counts = &mut [0; COUNTS];
        return repeat(n, args, |first| {
            let n = core.count(first, pages, counts, base, &ram.bytes);
            summed(n, told(counts), 0)
        });
    }
    if let Work::Windows(lists) = work {
        let (lists, out) = (lists.bytes(), &mut [0; 3]);
        return repeat(n, args, |i| {
            let n = core.windows_into(&lists[i as usize], out, base, &ram.bytes);
            met_of(n, out)
        });
    }
    if let Work::Flip(kind, user) = work {
        let (kind, user, out) = (kind.into(), user.into(), &mut [0; 3]);
        return repeat(n, args, |va| {
            let n = core.flip_into(va, kind, user, out, base, &mut ram.bytes);
            flipped_of(n, out)
        });
    }
    calls(work, args, Lent::new(core, base, &mut ram.bytes), n)
}

/// Calls of a core, or of one of a cluster's.
#[inline(always)]
pub fn calls(work: Work, args: [u64; 2], mut lent: impl Calls, n: usize) -> u64 {
    let mut ans = Answer::default();
    let a = &mut ans;
    match black_box(work) {
        Work::Translate(kind) => {
            let kind = kind.into();
            repeat(n, args, |va| summed(lent.translate(va, kind, a), a.value, 0))
        }
        Work::DataPa => repeat(n, args, |va| match lent.data_pa(va, a) {
            0 => a.value,
            _ => fault(1, 0),
        }),
        Work::FetchPa => repeat(n, args, |va| match lent.fetch_pa(va, a) {
            0 => a.value,
            _ => fault(1, 0),
        }),
        Work::Load(size) => {
            let size = size.into();
            repeat(n, args, |va| summed(lent.load(va, size, a), a.value, a.value))
        }
        Work::Store(size) => {
            let (size, v) = (size.into(), black_box(STORED));
            repeat(n, args, |va| summed(lent.store(va, size, v, a), DONE, a.value))
        }
        Work::Fetch => repeat(n, args, |va| summed(lent.fetch(va, a), a.value, 0)),
        Work::System(fields) => {
            let [op1, crn, crm, op2] = fields.map(u64::from);
            repeat(n, args, |rt| {
                let n = lent.system([op1, crn, crm, op2, rt], a);
                summed(n, DONE, a.value)
            })
        }
        Work::Register(key) => {
            let key = key.into();
            repeat(n, args, |v| summed(lent.register(key, v), DONE, 0))
        }
        Work::Level => repeat(n, args, |l| summed(lent.level(l), DONE, 0)),
        Work::Mark => repeat(n, args, |on| summed(lent.mark(on), DONE, 0)),
        Work::General(r) => {
            let r = r.into();
            repeat(n, args, |v| summed(lent.general(r, v), DONE, 0))
        }
        Work::DataAbort => repeat(n, args, |addr| summed(lent.abort(&[5, addr, 1, 7]), DONE, 0)),
        Work::Census(_) | Work::Windows(_) | Work::Flip(..) => unreachable!("made above"),
        Work::Frames(Rate::Hz48000) => repeat(n, args, |cycles| both(frames_48000(cycles))),
        Work::Frames(Rate::Hz44100) => repeat(n, args, |cycles| both(frames_44100(cycles))),
        Work::Svc => repeat(n, args, |i| summed(lent.abort(&[1, i, 0, 0]), DONE, 0)),
    }
}
