//! Bytes that are mapped twice, to be written and to be read alone. A core that is lent the second cannot write them:
//! the machine ends the run where it tries. So bytes need not be compared after an operation that got that mapping.
use std::ffi::{c_char, c_int, c_long, c_void};
use std::ptr::null_mut;
use std::slice;

extern "C" {
    fn memfd_create(name: *const c_char, flags: u32) -> c_int;
    fn ftruncate(fd: c_int, length: c_long) -> c_int;
    fn mmap(at: *mut c_void, n: usize, rights: c_int, flags: c_int, fd: c_int, offset: c_long)
        -> *mut c_void;
    fn munmap(at: *mut c_void, n: usize) -> c_int;
    fn close(fd: c_int) -> c_int;
}

const READ: c_int = 1;
const WRITE: c_int = 2;
const SHARED: c_int = 1;
/// What a map is made for, at least.
const ROOM: usize = 1 << 21;

pub struct Twin {
    written: *mut u8,
    read: *mut u8,
    room: usize,
    len: usize,
}

fn map(fd: c_int, room: usize, rights: c_int) -> *mut u8 {
    // Sound: a new mapping, at a place of the system's choice.
    let at = unsafe { mmap(null_mut(), room, rights, SHARED, fd, 0) };
    assert!(at as isize != -1, "no memory to map");
    at.cast()
}

impl Twin {
    /// This many zero bytes.
    pub fn new(len: usize) -> Twin {
        let room = len.max(ROOM).next_multiple_of(1 << 12);
        // Sound: the name is a C string, and the descriptor is closed once both maps are made.
        let fd = unsafe { memfd_create(c"ram".as_ptr(), 0) };
        assert!(
            fd >= 0 && unsafe { ftruncate(fd, room as c_long) } == 0,
            "no memory"
        );
        let (written, read) = (map(fd, room, READ | WRITE), map(fd, room, READ));
        unsafe { close(fd) };
        Twin {
            written,
            read,
            room,
            len,
        }
    }

    pub fn bytes(&self) -> &[u8] {
        // Sound: `len` bytes of the map, which lives as long as this.
        unsafe { slice::from_raw_parts(self.written, self.len) }
    }

    pub fn bytes_mut(&mut self) -> &mut [u8] {
        // Sound: as above, and borrowed from here alone.
        unsafe { slice::from_raw_parts_mut(self.written, self.len) }
    }

    /// Where the bytes may only be read.
    pub fn sealed(&mut self) -> *mut u8 {
        self.read
    }

    /// Bytes stay by offset, new ones are zero.
    pub fn resize(&mut self, len: usize) {
        if len > self.room {
            let mut wider = Twin::new(len);
            wider.bytes_mut()[..self.len].copy_from_slice(self.bytes());
            *self = wider;
        } else if len < self.len {
            self.bytes_mut()[len..].fill(0);
        }
        self.len = len;
    }
}

impl Drop for Twin {
    fn drop(&mut self) {
        // Sound: both maps are this one's own.
        unsafe {
            munmap(self.written.cast(), self.room);
            munmap(self.read.cast(), self.room);
        }
    }
}
