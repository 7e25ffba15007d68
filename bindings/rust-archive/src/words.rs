//! What the library takes and gives as words.
use plain::{Broadcast, Exception};

/// The four words by which the library knows an exception. Each part fits: the library refuses an immediate of more
/// than 16 bits, a status of more than 8, and a `write` that is neither 0 nor 1.
pub fn of_exception(exception: &Exception) -> [u64; 4] {
    match *exception {
        Exception::Undefined => [0, 0, 0, 0],
        Exception::Svc(i) => [1, i.into(), 0, 0],
        Exception::Hvc(i) => [2, i.into(), 0, 0],
        Exception::Smc(i) => [3, i.into(), 0, 0],
        Exception::Brk(i) => [4, i.into(), 0, 0],
        Exception::DataAbort {
            address,
            write,
            status,
        } => [5, address, write.into(), status.0.into()],
        Exception::InstructionAbort { address, status } => [6, address, status.0.into(), 0],
        Exception::PcAlignment => [7, 0, 0, 0],
    }
}

/// A broadcast by the library's two words.
pub fn broadcast([kind, value]: [u64; 2]) -> Option<Broadcast> {
    match kind {
        1 => Some(Broadcast::All),
        2 => Some(Broadcast::Page(value)),
        3 => Some(Broadcast::Asid(value as u16)),
        _ => None,
    }
}

/// The library's two words for a broadcast.
pub fn of_broadcast(broadcast: Broadcast) -> [u64; 2] {
    match broadcast {
        Broadcast::All => [1, 0],
        Broadcast::Page(value) => [2, value],
        Broadcast::Asid(asid) => [3, asid.into()],
    }
}
