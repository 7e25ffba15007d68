//! The same of a cluster: each takes the number of a core, and gives 8 where it is above 3.
use crate::held_cluster::HeldCluster;
use crate::library::{self, Answer};
use plain::count::{Counts, COUNTS};

// Why each call below is sound: as of a core. The cluster has its memory for itself, and is not `Sync`.

#[inline]
pub fn translate(
    cluster: &mut HeldCluster,
    n: u64,
    va: u64,
    kind: u64,
    base: u64,
    ram: &[u8],
) -> (u64, Answer) {
    let (mut answer, at, len) = (Answer::default(), ram.as_ptr(), ram.len());
    // Sound: a cluster, a slice with its own length, and a local answer.
    let number =
        unsafe { library::a72_cluster_translate(cluster.handle(), n, va, kind, base, at, len, &mut answer) };
    (number, answer)
}

/// Functions that take an address, and read RAM.
macro_rules! at_an_address {
    ($($name:ident $function:ident;)*) => {
        $(#[inline]
        pub fn $name(cluster: &mut HeldCluster, n: u64, va: u64, base: u64, ram: &[u8]) -> (u64, Answer) {
            let (mut answer, at, len) = (Answer::default(), ram.as_ptr(), ram.len());
            // Sound: a cluster, a slice with its own length, and a local answer.
            let number = unsafe { library::$function(cluster.handle(), n, va, base, at, len, &mut answer) };
            (number, answer)
        })*
    };
}

at_an_address! {
    data_pa a72_cluster_data_pa;
    fetch_pa a72_cluster_fetch_pa;
    fetch a72_cluster_fetch;
}

#[inline]
pub fn load(cluster: &mut HeldCluster, n: u64, va: u64, size: u64, base: u64, ram: &[u8]) -> (u64, Answer) {
    let (mut answer, at, len) = (Answer::default(), ram.as_ptr(), ram.len());
    // Sound: a cluster, a slice with its own length, and a local answer.
    let number =
        unsafe { library::a72_cluster_load(cluster.handle(), n, va, size, base, at, len, &mut answer) };
    (number, answer)
}

#[inline]
pub fn store(
    cluster: &mut HeldCluster,
    n: u64,
    va: u64,
    size: u64,
    value: u64,
    base: u64,
    ram: &mut [u8],
) -> (u64, Answer) {
    let (mut answer, at, len) = (Answer::default(), ram.as_mut_ptr(), ram.len());
    // Sound: a cluster, a slice borrowed exclusively with its own length, and a local answer.
    let number = unsafe {
        library::a72_cluster_store(cluster.handle(), n, va, size, value, base, at, len, &mut answer)
    };
    (number, answer)
}

/// `fields`: op1, CRn, CRm, op2, register.
#[inline]
pub fn system(
    cluster: &mut HeldCluster,
    n: u64,
    fields: [u64; 5],
    base: u64,
    ram: &mut [u8],
) -> (u64, Answer) {
    let [op1, crn, crm, op2, rt] = fields;
    let (mut answer, at, len) = (Answer::default(), ram.as_mut_ptr(), ram.len());
    let handle = cluster.handle();
    // Sound: a cluster, a slice borrowed exclusively with its own length, and a local answer.
    let number =
        unsafe { library::a72_cluster_system(handle, n, op1, crn, crm, op2, rt, base, at, len, &mut answer) };
    (number, answer)
}

pub fn census(
    cluster: &mut HeldCluster,
    n: u64,
    first: u64,
    pages: u64,
    base: u64,
    ram: &[u8],
) -> (u64, Counts) {
    let (mut counts, at, len) = ([0; COUNTS], ram.as_ptr(), ram.len());
    // Sound: a cluster, a slice with its own length, and a local array.
    let number =
        unsafe { library::a72_cluster_census(cluster.handle(), n, first, pages, base, at, len, &mut counts) };
    (number, counts)
}

/// What is found or faults, zeros where nothing is written.
pub fn windows(cluster: &mut HeldCluster, n: u64, list: &[u8], base: u64, ram: &[u8]) -> (u64, [u64; 3]) {
    let (mut out, at, len) = ([0; 3], ram.as_ptr(), ram.len());
    let (list, list_len) = (list.as_ptr(), list.len());
    // Sound: a cluster, slices with their own lengths, and a local array.
    let number =
        unsafe { library::a72_cluster_windows(cluster.handle(), n, list, list_len, base, at, len, &mut out) };
    (number, out)
}

/// What is found, zeros where nothing is written.
pub fn flip(
    cluster: &mut HeldCluster,
    n: u64,
    va: u64,
    kind: u64,
    user: u64,
    base: u64,
    ram: &mut [u8],
) -> (u64, [u64; 3]) {
    let (mut out, at, len) = ([0; 3], ram.as_mut_ptr(), ram.len());
    // Sound: a cluster, a slice borrowed exclusively with its own length, and a local array.
    let number =
        unsafe { library::a72_cluster_flip(cluster.handle(), n, va, kind, user, base, at, len, &mut out) };
    (number, out)
}

#[inline]
pub fn register(cluster: &mut HeldCluster, n: u64, key: u64, value: u64) -> u64 {
    // Sound: a cluster.
    unsafe { library::a72_cluster_register(cluster.handle(), n, key, value) }
}

#[inline]
pub fn level(cluster: &mut HeldCluster, n: u64, level: u64) -> u64 {
    // Sound: a cluster.
    unsafe { library::a72_cluster_level(cluster.handle(), n, level) }
}

#[inline]
pub fn mark(cluster: &mut HeldCluster, n: u64, mark: u64) -> u64 {
    // Sound: a cluster.
    unsafe { library::a72_cluster_mark(cluster.handle(), n, mark) }
}

#[inline]
pub fn general(cluster: &mut HeldCluster, n: u64, number: u64, value: u64) -> u64 {
    // Sound: a cluster.
    unsafe { library::a72_cluster_general(cluster.handle(), n, number, value) }
}

#[inline]
pub fn abort(cluster: &mut HeldCluster, n: u64, exception: &[u64; 4]) -> u64 {
    // Sound: a cluster, and an array.
    unsafe { library::a72_cluster_abort(cluster.handle(), n, exception) }
}
