//! A cluster of four cores in memory of its own.
#![allow(unsafe_code)]

use super::held::{Held, Memory, Owned, HANDLE_SIZE};
use super::library::{a72_cluster_get, a72_cluster_init_at, a72_cluster_put, ClusterHandle};

/// The bytes of a cluster's memory.
pub const CLUSTER_SIZE: usize = 166952;
/// Its alignment.
pub const CLUSTER_ALIGN: usize = 8;

/// The words in a cluster's memory.
const CLUSTER: usize = (CLUSTER_SIZE - HANDLE_SIZE) / 8;

const _: () = assert!(size_of::<Memory<CLUSTER>>() == CLUSTER_SIZE);
const _: () = assert!(align_of::<Memory<CLUSTER>>() == CLUSTER_ALIGN);

/// A cluster of the library.
pub type HeldCluster = Owned<CLUSTER>;

impl HeldCluster {
    /// Four cores out of reset.
    pub fn new() -> HeldCluster {
        let held = HeldCluster::room();
        // Sound: as much memory as a cluster takes, which nobody else has.
        unsafe { a72_cluster_init_at(held.at()) }
        held
    }

    /// What the library's functions take.
    #[inline(always)]
    pub fn handle(&self) -> *mut ClusterHandle {
        self.memory().cast()
    }

    /// A core of the cluster is copied out: the call's number.
    pub fn get(&self, n: u64, out: &mut Held) -> u64 {
        // Sound: a cluster, and a core, borrowed exclusively.
        unsafe { a72_cluster_get(self.handle(), n, out.handle()) }
    }

    /// A core is copied in: the call's number.
    pub fn put(&mut self, n: u64, from: &Held) -> u64 {
        // Sound: a cluster, borrowed exclusively, and a core.
        unsafe { a72_cluster_put(self.handle(), n, from.handle()) }
    }
}
