//! A state in memory of its own, and a core there. `include/a72.h` says what that memory is: the address of the state, and
//! after it the state.
#![allow(unsafe_code)]

use super::library::{a72_init_at, a72_restore, a72_save, Handle};
use super::place::{State, WORDS};
use std::alloc::{alloc_zeroed, handle_alloc_error, Layout};
use std::ffi::c_void;
use std::ptr::{addr_of_mut, copy_nonoverlapping, NonNull};

/// The bytes of a core's memory.
pub const CORE_SIZE: usize = 41744;
/// Its alignment.
pub const CORE_ALIGN: usize = 8;
/// The bytes of the core's address.
pub const HANDLE_SIZE: usize = 8;

/// What a state of the library lies in, of so many words: its address, and after it the state.
#[repr(C)]
pub struct Memory<const WORDS: usize> {
    at: *mut c_void,
    state: [u64; WORDS],
}

/// The words in a core's memory.
const CORE: usize = (CORE_SIZE - HANDLE_SIZE) / 8;

const _: () = assert!(size_of::<Memory<CORE>>() == CORE_SIZE && align_of::<Memory<CORE>>() == CORE_ALIGN);

/// A state of the library. It owns its memory, which stays where it is.
pub struct Owned<const WORDS: usize>(NonNull<Memory<WORDS>>);

/// A core of the library.
pub type Held = Owned<CORE>;

// Sound: nobody else has the memory. A state is not `Sync`: the library takes it for its own as long as a call lasts,
// also where it only reads.
unsafe impl<const WORDS: usize> Send for Owned<WORDS> {}

impl<const WORDS: usize> Owned<WORDS> {
    /// Memory in which the address stands and no state yet.
    pub(super) fn room() -> Self {
        let layout = Layout::new::<Memory<WORDS>>();
        // Sound: it is not of no bytes, and zeros are such memory. Made here, it lies on no stack.
        let zeros = unsafe { alloc_zeroed(layout) };
        let Some(memory) = NonNull::new(zeros.cast::<Memory<WORDS>>()) else {
            handle_alloc_error(layout)
        };
        // Sound: nobody else has the memory.
        unsafe { (*memory.as_ptr()).at = addr_of_mut!((*memory.as_ptr()).state).cast() }
        Owned(memory)
    }

    /// The state's own address.
    pub(super) fn at(&self) -> *mut c_void {
        // Sound: it is the memory of this state.
        unsafe { (*self.0.as_ptr()).at }
    }

    /// The memory, as the library's functions take it.
    #[inline(always)]
    pub(super) fn memory(&self) -> *mut Memory<WORDS> {
        self.0.as_ptr()
    }
}

impl Held {
    /// A core out of reset.
    pub fn new() -> Held {
        let held = Held::room();
        // Sound: as much memory as a core takes, which nobody else has.
        unsafe { a72_init_at(held.at()) }
        held
    }

    /// What the library's functions take.
    #[inline(always)]
    pub fn handle(&self) -> *mut Handle {
        self.memory().cast()
    }

    /// The core's words, into an array.
    pub fn save_to(&self, words: &mut State) {
        // Sound: a core, and an array borrowed exclusively.
        unsafe { a72_save(self.handle(), words) }
    }

    /// The core's words.
    pub fn save(&self) -> Box<State> {
        let mut words: Box<State> = vec![0; WORDS].try_into().expect("as many words as a core has");
        self.save_to(&mut words);
        words
    }

    /// Become the core that these words hold, whatever they are.
    pub fn restore(&mut self, words: &State) {
        // Sound: a core, borrowed exclusively, and an array.
        unsafe { a72_restore(self.handle(), words) }
    }
}

impl<const WORDS: usize> Clone for Owned<WORDS> {
    fn clone(&self) -> Self {
        let held = Self::room();
        // Sound: a state holds no address, so that its bytes are the state; the two lie apart.
        unsafe { copy_nonoverlapping(self.at(), held.at(), 8 * WORDS) }
        held
    }
}

impl<const WORDS: usize> Drop for Owned<WORDS> {
    fn drop(&mut self) {
        // Sound: it was allocated as a box's, and nobody else has it.
        drop(unsafe { Box::from_raw(self.0.as_ptr()) })
    }
}
