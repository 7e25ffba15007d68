//! The functions of liba72abi.a; `include/a72.h` says what each does. A core is a pointer to its handle, a cluster too; an
//! array is one pointer, a struct of words too, RAM a pointer and its length.
use super::place::State;
use std::ffi::c_void;

/// What stands before a core in its memory: the core's address.
#[repr(C)]
pub struct Handle {
    pub at: *mut c_void,
}

/// What stands before the four cores of a cluster in its memory: their address.
#[repr(C)]
pub struct ClusterHandle {
    pub at: *mut c_void,
}

/// What a call says beside its number.
#[repr(C)]
#[derive(Clone, Copy, Debug, Default, PartialEq, Eq)]
pub struct Answer {
    pub value: u64,
    pub reads: u64,
}

extern "C" {
    pub fn a72_init_at(at: *mut c_void);
    pub fn a72_save(core: *mut Handle, words: *mut State);
    pub fn a72_restore(core: *mut Handle, words: *const State);
    pub fn a72_word(core: *mut Handle, place: usize) -> u64;
    pub fn a72_translate(
        core: *mut Handle,
        va: u64,
        kind: u64,
        answer: *mut Answer,
        base: u64,
        ram: *const u8,
        len: usize,
    ) -> u64;
    pub fn a72_data_pa(
        core: *mut Handle,
        va: u64,
        answer: *mut Answer,
        base: u64,
        ram: *const u8,
        len: usize,
    ) -> u64;
    pub fn a72_fetch_pa(
        core: *mut Handle,
        va: u64,
        answer: *mut Answer,
        base: u64,
        ram: *const u8,
        len: usize,
    ) -> u64;
    pub fn a72_load(
        core: *mut Handle,
        va: u64,
        size: u64,
        answer: *mut Answer,
        base: u64,
        ram: *const u8,
        len: usize,
    ) -> u64;
    pub fn a72_store(
        core: *mut Handle,
        va: u64,
        size: u64,
        value: u64,
        answer: *mut Answer,
        base: u64,
        ram: *mut u8,
        len: usize,
    ) -> u64;
    pub fn a72_fetch(
        core: *mut Handle,
        va: u64,
        answer: *mut Answer,
        base: u64,
        ram: *const u8,
        len: usize,
    ) -> u64;
    pub fn a72_system(
        core: *mut Handle,
        op1: u64,
        crn: u64,
        crm: u64,
        op2: u64,
        rt: u64,
        answer: *mut Answer,
        base: u64,
        ram: *mut u8,
        len: usize,
    ) -> u64;
    pub fn a72_register(core: *mut Handle, key: u64, value: u64) -> u64;
    pub fn a72_level(core: *mut Handle, level: u64) -> u64;
    pub fn a72_mark(core: *mut Handle, mark: u64) -> u64;
    pub fn a72_general(core: *mut Handle, number: u64, value: u64) -> u64;
    pub fn a72_abort(core: *mut Handle, exception: *const [u64; 4]) -> u64;
    pub fn a72_census(
        core: *mut Handle,
        first: u64,
        pages: u64,
        counts: *mut [u64; 129],
        base: u64,
        ram: *const u8,
        len: usize,
    ) -> u64;
    pub fn a72_windows(
        core: *mut Handle,
        list: *const u8,
        list_len: usize,
        out: *mut [u64; 3],
        base: u64,
        ram: *const u8,
        len: usize,
    ) -> u64;
    pub fn a72_flip(
        core: *mut Handle,
        va: u64,
        kind: u64,
        user: u64,
        out: *mut [u64; 3],
        base: u64,
        ram: *mut u8,
        len: usize,
    ) -> u64;
    pub fn a72_walk(
        registers: *const [u64; 6],
        regime: u64,
        va: u64,
        leaf: *mut [u64; 6],
        base: u64,
        ram: *const u8,
        len: usize,
    ) -> u64;
    pub fn a72_step(
        op: *const [u64; 8],
        core: *mut Handle,
        base: u64,
        ram: *mut u8,
        len: usize,
        answer: *mut [u64; 5],
    ) -> u64;
    pub fn a72_get_register(core: *mut Handle, key: u64, value: *mut u64) -> u64;
    pub fn a72_get_level(core: *mut Handle) -> u64;
    pub fn a72_get_unprivileged(core: *mut Handle) -> u64;
    pub fn a72_get_pstate(core: *mut Handle) -> u64;
    pub fn a72_set_pstate(core: *mut Handle, spsr: u64);
    pub fn a72_get_general(core: *mut Handle, number: u64) -> u64;
    pub fn a72_get_pc(core: *mut Handle) -> u64;
    pub fn a72_set_pc(core: *mut Handle, pc: u64);
    pub fn a72_get_last_pa(core: *mut Handle) -> u64;
    pub fn a72_get_abort_pa(core: *mut Handle) -> u64;
    pub fn a72_get_hits(core: *mut Handle, level: u64) -> u64;
    pub fn a72_get_walks(core: *mut Handle, level: u64) -> u64;
    pub fn a72_get_flushes(core: *mut Handle) -> u64;
    pub fn a72_get_drops(core: *mut Handle) -> u64;
    pub fn a72_get_epoch(core: *mut Handle) -> u64;
    pub fn a72_get_pending(core: *mut Handle, pending: *mut [u64; 2]);
    pub fn a72_take_pending(core: *mut Handle, pending: *mut [u64; 2]);
    pub fn a72_receive(core: *mut Handle, kind: u64, value: u64) -> u64;
    pub fn a72_get_generation(core: *mut Handle) -> u64;
    pub fn a72_set_generation(core: *mut Handle, generation: u64) -> u64;
    pub fn a72_get_asid(core: *mut Handle) -> u64;
    pub fn a72_get_entry(core: *mut Handle, slot: u64, entry: *mut [u64; 7]);
    pub fn a72_get_hint(core: *mut Handle, slot: u64, hint: *mut [u64; 2]);
    pub fn a72_get_fetch_hint(core: *mut Handle, hint: *mut [u64; 4]);
    pub fn a72_frames_48000(cycles: u64, left: *mut u64) -> u64;
    pub fn a72_frames_44100(cycles: u64, left: *mut u64) -> u64;
    pub fn a72_cluster_init_at(at: *mut c_void);
    pub fn a72_cluster_get(cluster: *mut ClusterHandle, n: u64, out: *mut Handle) -> u64;
    pub fn a72_cluster_put(cluster: *mut ClusterHandle, n: u64, from: *mut Handle) -> u64;
    pub fn a72_cluster_translate(
        cluster: *mut ClusterHandle,
        n: u64,
        va: u64,
        kind: u64,
        base: u64,
        ram: *const u8,
        len: usize,
        answer: *mut Answer,
    ) -> u64;
    pub fn a72_cluster_data_pa(
        cluster: *mut ClusterHandle,
        n: u64,
        va: u64,
        base: u64,
        ram: *const u8,
        len: usize,
        answer: *mut Answer,
    ) -> u64;
    pub fn a72_cluster_fetch_pa(
        cluster: *mut ClusterHandle,
        n: u64,
        va: u64,
        base: u64,
        ram: *const u8,
        len: usize,
        answer: *mut Answer,
    ) -> u64;
    pub fn a72_cluster_load(
        cluster: *mut ClusterHandle,
        n: u64,
        va: u64,
        size: u64,
        base: u64,
        ram: *const u8,
        len: usize,
        answer: *mut Answer,
    ) -> u64;
    pub fn a72_cluster_store(
        cluster: *mut ClusterHandle,
        n: u64,
        va: u64,
        size: u64,
        value: u64,
        base: u64,
        ram: *mut u8,
        len: usize,
        answer: *mut Answer,
    ) -> u64;
    pub fn a72_cluster_fetch(
        cluster: *mut ClusterHandle,
        n: u64,
        va: u64,
        base: u64,
        ram: *const u8,
        len: usize,
        answer: *mut Answer,
    ) -> u64;
    pub fn a72_cluster_system(
        cluster: *mut ClusterHandle,
        n: u64,
        op1: u64,
        crn: u64,
        crm: u64,
        op2: u64,
        rt: u64,
        base: u64,
        ram: *mut u8,
        len: usize,
        answer: *mut Answer,
    ) -> u64;
    pub fn a72_cluster_register(cluster: *mut ClusterHandle, n: u64, key: u64, value: u64) -> u64;
    pub fn a72_cluster_level(cluster: *mut ClusterHandle, n: u64, level: u64) -> u64;
    pub fn a72_cluster_mark(cluster: *mut ClusterHandle, n: u64, mark: u64) -> u64;
    pub fn a72_cluster_general(cluster: *mut ClusterHandle, n: u64, number: u64, value: u64) -> u64;
    pub fn a72_cluster_abort(cluster: *mut ClusterHandle, n: u64, exception: *const [u64; 4]) -> u64;
    pub fn a72_cluster_census(
        cluster: *mut ClusterHandle,
        n: u64,
        first: u64,
        pages: u64,
        base: u64,
        ram: *const u8,
        len: usize,
        counts: *mut [u64; 129],
    ) -> u64;
    pub fn a72_cluster_windows(
        cluster: *mut ClusterHandle,
        n: u64,
        list: *const u8,
        list_len: usize,
        base: u64,
        ram: *const u8,
        len: usize,
        out: *mut [u64; 3],
    ) -> u64;
    pub fn a72_cluster_flip(
        cluster: *mut ClusterHandle,
        n: u64,
        va: u64,
        kind: u64,
        user: u64,
        base: u64,
        ram: *mut u8,
        len: usize,
        out: *mut [u64; 3],
    ) -> u64;
    pub fn a72_cluster_step(
        op: *const [u64; 8],
        cluster: *mut ClusterHandle,
        n: u64,
        base: u64,
        ram: *mut u8,
        len: usize,
        answer: *mut [u64; 5],
    ) -> u64;
}
