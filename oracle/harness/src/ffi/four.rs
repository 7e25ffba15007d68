//! One core of a cluster behind the C boundary, by the functions of the names `a72_cluster_..`. Each takes the cluster and a
//! core's number in the core's place, and gives 8, and nothing else, for a number above 3.
use super::looks::Looks;
use super::{encode, library, HeldCluster, UNWRITTEN};
use crate::census::Counts;
use crate::cluster::{place, NO_CORE};
use crate::ffi::decode_answer;
use crate::number::{DONE, NAMES_NOTHING};
use crate::op::{Ans, Line, Op};
use crate::Ram;
use library::{a72_cluster_census, a72_cluster_flip, a72_cluster_step, a72_cluster_windows};

/// The number of the check that there is such a core.
pub const CHECK_CORE: u64 = 8;

/// A cluster, and the number of the core that is spoken to.
pub struct OneOf<'a>(pub &'a HeldCluster, pub u64);

impl Looks for OneOf<'_> {
    #[inline(always)]
    fn count(&self, first: u64, pages: u64, counts: &mut Counts, base: u64, ram: &[u8]) -> u64 {
        let (at, len) = (ram.as_ptr(), ram.len());
        // Sound: each pointer is that of a cluster, an array or a slice, with its own length; the counts are borrowed exclusively.
        unsafe { a72_cluster_census(self.0.handle(), self.1, first, pages, base, at, len, counts) }
    }

    #[inline(always)]
    fn windows_into(&self, list: &[u8], out: &mut [u64; 3], base: u64, ram: &[u8]) -> u64 {
        let (list, list_len, at, len) = (list.as_ptr(), list.len(), ram.as_ptr(), ram.len());
        // Sound: each pointer is that of a cluster, an array or a slice, with its own length; `out` is borrowed exclusively.
        unsafe { a72_cluster_windows(self.0.handle(), self.1, list, list_len, base, at, len, out) }
    }

    #[inline(always)]
    fn flip_into(&self, va: u64, kind: u64, user: u64, out: &mut [u64; 3], base: u64, ram: &mut [u8]) -> u64 {
        let (at, len) = (ram.as_mut_ptr(), ram.len());
        // Sound: each pointer is that of a cluster, an array or a slice, with its own length; both are borrowed exclusively.
        unsafe { a72_cluster_flip(self.0.handle(), self.1, va, kind, user, base, at, len, out) }
    }

    fn unnamed(&self) -> u64 {
        place(self.1).map_or(CHECK_CORE, |_| NAMES_NOTHING)
    }
}

/// `a72_cluster_step` with these words: its number, and the five words of the answer.
fn step_by_words(one: &OneOf, words: &[u64; 8], base: u64, ram: *mut u8, len: usize) -> (u64, [u64; 5]) {
    let mut answer = [UNWRITTEN; 5];
    // Sound: each pointer is that of an array or a vector, with its own length, and no two overlap.
    let n = unsafe { a72_cluster_step(words, one.0.handle(), one.1, base, ram, len, &mut answer) };
    (n, answer)
}

/// One operation by `a72_cluster_step`: its answer, and the descriptors that it read. Of a number above 3 words that name
/// nothing have to give 8 too.
pub fn step(one: &OneOf, op: &Op, ram: &mut Ram) -> (Ans, u64) {
    let to_write = op.may_write_ram() && !op.looks();
    let (at, len) = (ram.bytes.lent(to_write), ram.bytes.len());
    let line = encode(&Line::Op(*op));
    let is_none = place(one.1).is_none();
    if is_none && step_by_words(one, &[u64::MAX; 8], ram.base, at, len) != (CHECK_CORE, [UNWRITTEN; 5]) {
        return (Ans::Panic, 0);
    }
    match step_by_words(one, &line, ram.base, at, len) {
        (DONE, [ans @ .., reads]) => (decode_answer(&ans), reads),
        (CHECK_CORE, answer) if is_none && answer == [UNWRITTEN; 5] => (NO_CORE, 0),
        (_, [.., reads]) => (Ans::Panic, reads),
    }
}

/// A cluster and the window lent with it. Sound throughout: the cluster is borrowed exclusively by [`LentFour::new`], each
/// other pointer is that of an array or a slice, with its own length, and the exclusive borrows keep them apart.
#[cfg(feature = "rattle")]
pub struct LentFour<'a> {
    cluster: *mut library::ClusterHandle,
    n: u64,
    base: u64,
    ram: &'a mut [u8],
}

#[cfg(feature = "rattle")]
mod each {
    use super::super::each::Calls;
    use super::LentFour;
    use crate::ffi::HeldCluster;
    use crate::library::*;

    impl<'a> LentFour<'a> {
        pub fn new(cluster: &'a mut HeldCluster, n: u64, base: u64, ram: &'a mut [u8]) -> LentFour<'a> {
            let cluster = cluster.handle();
            LentFour {
                cluster,
                n,
                base,
                ram,
            }
        }
    }

    impl Calls for LentFour<'_> {
        #[inline(always)]
        fn translate(&mut self, va: u64, kind: u64, ans: &mut Answer) -> u64 {
            let (ram, n) = (&*self.ram, self.n);
            unsafe {
                a72_cluster_translate(self.cluster, n, va, kind, self.base, ram.as_ptr(), ram.len(), ans)
            }
        }

        #[inline(always)]
        fn data_pa(&mut self, va: u64, ans: &mut Answer) -> u64 {
            let (ram, n) = (&*self.ram, self.n);
            unsafe { a72_cluster_data_pa(self.cluster, n, va, self.base, ram.as_ptr(), ram.len(), ans) }
        }

        #[inline(always)]
        fn fetch_pa(&mut self, va: u64, ans: &mut Answer) -> u64 {
            let (ram, n) = (&*self.ram, self.n);
            unsafe { a72_cluster_fetch_pa(self.cluster, n, va, self.base, ram.as_ptr(), ram.len(), ans) }
        }

        #[inline(always)]
        fn load(&mut self, va: u64, size: u64, ans: &mut Answer) -> u64 {
            let (ram, n) = (&*self.ram, self.n);
            unsafe { a72_cluster_load(self.cluster, n, va, size, self.base, ram.as_ptr(), ram.len(), ans) }
        }

        #[inline(always)]
        fn store(&mut self, va: u64, size: u64, value: u64, ans: &mut Answer) -> u64 {
            let (at, len, n) = (self.ram.as_mut_ptr(), self.ram.len(), self.n);
            unsafe { a72_cluster_store(self.cluster, n, va, size, value, self.base, at, len, ans) }
        }

        #[inline(always)]
        fn fetch(&mut self, va: u64, ans: &mut Answer) -> u64 {
            let (ram, n) = (&*self.ram, self.n);
            unsafe { a72_cluster_fetch(self.cluster, n, va, self.base, ram.as_ptr(), ram.len(), ans) }
        }

        #[inline(always)]
        fn system(&mut self, fields: [u64; 5], ans: &mut Answer) -> u64 {
            let [op1, crn, crm, op2, rt] = fields;
            let (at, len, n) = (self.ram.as_mut_ptr(), self.ram.len(), self.n);
            unsafe { a72_cluster_system(self.cluster, n, op1, crn, crm, op2, rt, self.base, at, len, ans) }
        }

        #[inline(always)]
        fn register(&mut self, key: u64, value: u64) -> u64 {
            unsafe { a72_cluster_register(self.cluster, self.n, key, value) }
        }

        #[inline(always)]
        fn level(&mut self, level: u64) -> u64 {
            unsafe { a72_cluster_level(self.cluster, self.n, level) }
        }

        #[inline(always)]
        fn mark(&mut self, mark: u64) -> u64 {
            unsafe { a72_cluster_mark(self.cluster, self.n, mark) }
        }

        #[inline(always)]
        fn general(&mut self, number: u64, value: u64) -> u64 {
            unsafe { a72_cluster_general(self.cluster, self.n, number, value) }
        }

        #[inline(always)]
        fn abort(&mut self, e: &[u64; 4]) -> u64 {
            unsafe { a72_cluster_abort(self.cluster, self.n, e) }
        }
    }
}
