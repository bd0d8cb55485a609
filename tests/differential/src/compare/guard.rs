//! Inputs that the library may read and do nothing else with.

use std::ffi::c_char;
use std::ptr;

const PAGE: usize = 4096;
const PROT_NONE: i32 = 0;
const PROT_READ: i32 = 1;
const PROT_WRITE: i32 = 2;
const MAP_SHARED: i32 = 1;
const MAP_PRIVATE: i32 = 2;
const MAP_FIXED: i32 = 16;
const MAP_ANONYMOUS: i32 = 32;
const MAP_NORESERVE: i32 = 16_384;

/// Enough for the longest carrier and as many bytes after it.
const ROOM: usize = 32 * PAGE;

/// What lies before an input, so that bits from there are noticed.
const NOISE: u8 = 0xa5;

extern "C" {
    fn mmap(
        address: *mut u8,
        length: usize,
        protection: i32,
        flags: i32,
        file: i32,
        offset: i64,
    ) -> *mut u8;
    fn mprotect(address: *mut u8, length: usize, protection: i32) -> i32;
    fn munmap(address: *mut u8, length: usize) -> i32;
    fn memfd_create(name: *const c_char, flags: u32) -> i32;
    fn ftruncate(file: i32, length: i64) -> i32;
    fn close(file: i32) -> i32;
}

/// A copy of some bytes in read-only memory; the byte after the last one can't be touched.
pub struct Input {
    mapping: *mut u8,
    mapped: usize,
    length: usize,
}

impl Input {
    #[must_use]
    pub fn new(bytes: &[u8]) -> Self {
        let room = bytes.len().div_ceil(PAGE) * PAGE;
        let mapped = room + 2 * PAGE;
        // SAFETY: a fresh mapping of `mapped` bytes, of which the pages between the
        // first and the last are made writable, filled up to their end and closed again.
        let mapping = unsafe {
            let flags = MAP_PRIVATE | MAP_ANONYMOUS;
            let mapping = mmap(ptr::null_mut(), mapped, PROT_NONE, flags, -1, 0);
            assert!(mapping.addr() != usize::MAX, "no memory for an input");
            let open = mapping.add(PAGE);
            if room > 0 {
                assert_eq!(mprotect(open, room, PROT_READ | PROT_WRITE), 0);
                ptr::write_bytes(open, NOISE, room);
                let start = open.add(room - bytes.len());
                ptr::copy_nonoverlapping(bytes.as_ptr(), start, bytes.len());
                assert_eq!(mprotect(open, room, PROT_READ), 0);
            }
            mapping
        };
        Self {
            mapping,
            mapped,
            length: bytes.len(),
        }
    }

    /// Bytes that are zero but for these parts, each at its place; the other pages take no memory.
    #[must_use]
    pub fn sparse(length: usize, parts: &[(usize, Vec<u8>)]) -> Self {
        let room = length.div_ceil(PAGE) * PAGE;
        let mapped = room + 2 * PAGE;
        // SAFETY: a fresh mapping of `mapped` bytes, of which the pages between the first and the
        // last are made readable, and those of the parts, which lie in the slice, are filled.
        unsafe {
            let flags = MAP_PRIVATE | MAP_ANONYMOUS | MAP_NORESERVE;
            let mapping = mmap(ptr::null_mut(), mapped, PROT_NONE, flags, -1, 0);
            assert!(mapping.addr() != usize::MAX, "no memory for an input");
            assert_eq!(mprotect(mapping.add(PAGE), room, PROT_READ), 0);
            for (at, part) in parts {
                assert!(at + part.len() <= length, "a part past the input");
                let start = PAGE + room - length + at;
                let first_page = start / PAGE * PAGE;
                let pages = (start + part.len()).next_multiple_of(PAGE) - first_page;
                let page = mapping.add(first_page);
                assert_eq!(mprotect(page, pages, PROT_READ | PROT_WRITE), 0);
                ptr::copy_nonoverlapping(part.as_ptr(), mapping.add(start), part.len());
                assert_eq!(mprotect(page, pages, PROT_READ), 0);
            }
            Self {
                mapping,
                mapped,
                length,
            }
        }
    }

    #[must_use]
    pub fn bytes(&self) -> &[u8] {
        let start = self.mapped - PAGE - self.length;
        // SAFETY: the input's bytes end where the last, closed page begins.
        unsafe { std::slice::from_raw_parts(self.mapping.add(start), self.length) }
    }
}

impl Drop for Input {
    fn drop(&mut self) {
        // SAFETY: the whole mapping made in `new`; no slice of it outlives the input.
        let freed = unsafe { munmap(self.mapping, self.mapped) };
        assert_eq!(freed, 0);
    }
}

/// A place for inputs of any length; long ones have memory of their own.
pub struct Slot {
    place: Place,
    long: Option<Input>,
}

impl Slot {
    #[must_use]
    pub fn new() -> Self {
        Self {
            place: Place::new(),
            long: None,
        }
    }

    /// Replaces the input that was there.
    pub fn put(&mut self, bytes: &[u8]) {
        self.long = (bytes.len() > ROOM).then(|| Input::new(bytes));
        if self.long.is_none() {
            self.place.put(bytes);
        }
    }

    #[must_use]
    pub fn bytes(&self) -> &[u8] {
        match &self.long {
            Some(input) => input.bytes(),
            None => self.place.bytes(),
        }
    }
}

/// A place for inputs in turn; its memory is there twice, so that filling it asks no system call.
pub struct Place {
    writable: *mut u8,
    guarded: *mut u8,
    length: usize,
}

impl Place {
    #[must_use]
    pub fn new() -> Self {
        // SAFETY: fresh mappings of `ROOM` bytes, the second in the middle of a closed one.
        unsafe {
            let file = memfd_create(c"input".as_ptr(), 0);
            assert!(file >= 0, "no memory for inputs");
            assert_eq!(ftruncate(file, ROOM as i64), 0);
            let protection = PROT_READ | PROT_WRITE;
            let writable = mmap(ptr::null_mut(), ROOM, protection, MAP_SHARED, file, 0);
            assert!(writable.addr() != usize::MAX, "no memory for inputs");
            let flags = MAP_PRIVATE | MAP_ANONYMOUS;
            let mapping = mmap(ptr::null_mut(), ROOM + 2 * PAGE, PROT_NONE, flags, -1, 0);
            assert!(mapping.addr() != usize::MAX, "no memory for inputs");
            let guarded = mapping.add(PAGE);
            let mapped = mmap(guarded, ROOM, PROT_READ, MAP_SHARED | MAP_FIXED, file, 0);
            assert_eq!(mapped, guarded);
            assert_eq!(close(file), 0);
            ptr::write_bytes(writable, NOISE, ROOM);
            Self {
                writable,
                guarded,
                length: 0,
            }
        }
    }

    /// Replaces the input that was there.
    pub fn put(&mut self, bytes: &[u8]) {
        assert!(bytes.len() <= ROOM, "an input too long for its place");
        // SAFETY: both ranges end where the room ends and are no longer than it.
        unsafe {
            let end = self.writable.add(ROOM);
            ptr::write_bytes(end.sub(self.length), NOISE, self.length);
            ptr::copy_nonoverlapping(bytes.as_ptr(), end.sub(bytes.len()), bytes.len());
        }
        self.length = bytes.len();
    }

    #[must_use]
    pub fn bytes(&self) -> &[u8] {
        // SAFETY: the input's bytes end where the last, closed page begins.
        unsafe { std::slice::from_raw_parts(self.guarded.add(ROOM - self.length), self.length) }
    }
}

impl Drop for Place {
    fn drop(&mut self) {
        // SAFETY: both mappings made in `new`; no slice of them outlives the place.
        unsafe {
            assert_eq!(munmap(self.writable, ROOM), 0);
            assert_eq!(munmap(self.guarded.sub(PAGE), ROOM + 2 * PAGE), 0);
        }
    }
}
