//! Bytes that are lent to a call, so that a touch of any other byte is noticed.
//!
//! On pages, one edge of the bytes touches a page without access and guard bytes are at the other; bytes that are
//! only read are on pages that cannot be written. The pages are mapped once and lent again and again. On the heap,
//! each lending is an allocation of its own and of its exact size, as valgrind wants it.

use std::mem::{align_of, size_of};
use std::os::raw::{c_int, c_void};
use std::ptr::null_mut;
use std::slice::{from_raw_parts, from_raw_parts_mut};

/// How many guard bytes are at the edge that touches no page without access.
const GUARD: usize = 64;
/// The size of a page on x86-64.
const PAGE: usize = 4096;

const PROT_NONE: c_int = 0;
const PROT_READ: c_int = 1;
const PROT_WRITE: c_int = 2;
const MAP_PRIVATE: c_int = 2;
const MAP_ANONYMOUS: c_int = 0x20;
const MAP_NORESERVE: c_int = 0x4000;

extern "C" {
    fn mmap(
        address: *mut c_void,
        length: usize,
        protection: c_int,
        flags: c_int,
        descriptor: c_int,
        offset: i64,
    ) -> *mut c_void;
    fn mprotect(address: *mut c_void, length: usize, protection: c_int) -> c_int;
    fn munmap(address: *mut c_void, length: usize) -> c_int;
}

/// Where lent bytes are.
#[derive(Clone, Copy, Debug, PartialEq, Eq)]
pub enum Place {
    Pages,
    Heap,
}

/// Which edge of bytes on pages touches the page without access.
#[derive(Clone, Copy, Debug, PartialEq, Eq)]
pub enum Edge {
    Start,
    End,
}

/// Pages that can be read and written, between two that cannot be touched.
struct Pages {
    /// The first byte of them.
    first: *mut u8,
    length: usize,
    /// The pages that cannot be written at present.
    read_only: Option<(usize, usize)>,
}

/// Bytes, rounded up to whole pages.
fn whole_pages(bytes: usize) -> usize {
    (bytes + PAGE - 1) / PAGE * PAGE
}

impl Pages {
    fn new(capacity: usize) -> Self {
        let length = whole_pages(capacity);
        let flags = MAP_PRIVATE | MAP_ANONYMOUS | MAP_NORESERVE;
        // SAFETY: a new mapping at an address of the system's choice.
        let address = unsafe { mmap(null_mut(), length + 2 * PAGE, PROT_NONE, flags, -1, 0) };
        assert!(address as isize != -1, "no memory for {length} bytes");
        let mut pages = Self {
            first: address.cast::<u8>().wrapping_add(PAGE),
            length,
            read_only: None,
        };
        pages.protect(0, length, PROT_READ | PROT_WRITE);
        pages
    }

    fn protect(&mut self, start: usize, end: usize, protection: c_int) {
        let address = self.first.wrapping_add(start).cast();
        // SAFETY: the pages are part of the mapping, and no reference into them is alive.
        let status = unsafe { mprotect(address, end - start, protection) };
        assert_eq!(status, 0, "pages cannot be protected");
    }

    /// Makes the pages of some bytes ones that cannot be written.
    fn make_read_only(&mut self, bytes: *mut u8, length: usize) {
        let start = bytes as usize - self.first as usize;
        let end = whole_pages(start + length);
        let start = start / PAGE * PAGE;
        self.protect(start, end, PROT_READ);
        self.read_only = Some((start, end));
    }

    fn make_writable(&mut self) {
        if let Some((start, end)) = self.read_only.take() {
            self.protect(start, end, PROT_READ | PROT_WRITE);
        }
    }
}

impl Drop for Pages {
    fn drop(&mut self) {
        // SAFETY: the whole mapping, which nothing uses any more.
        unsafe { munmap(self.first.wrapping_sub(PAGE).cast(), self.length + 2 * PAGE) };
    }
}

enum Memory {
    Pages(Pages),
    Heap(Vec<u8>),
}

/// Bytes that are lent, and can be lent again with another length.
pub struct Lent {
    what: &'static str,
    memory: Memory,
    edge: Edge,
    /// The first lent byte.
    first: *mut u8,
    length: usize,
    pattern: Vec<u8>,
}

impl Lent {
    /// Memory for at most the given number of bytes, of which none is lent yet.
    pub fn new(what: &'static str, place: Place, capacity: usize) -> Self {
        let memory = match place {
            Place::Pages => Memory::Pages(Pages::new(capacity + GUARD)),
            Place::Heap => Memory::Heap(Vec::new()),
        };
        let mut lent = Self {
            what,
            memory,
            edge: Edge::Start,
            first: null_mut(),
            length: 0,
            pattern: Vec::new(),
        };
        lent.lend(0, Edge::Start);
        lent
    }

    pub fn what(&self) -> &'static str {
        self.what
    }

    /// Lends a copy of the content, which can only be read.
    pub fn read_only(&mut self, content: &[u8], edge: Edge) {
        self.lend(content.len(), edge);
        self.bytes_mut().copy_from_slice(content);
        if let Memory::Pages(pages) = &mut self.memory {
            pages.make_read_only(self.first, self.length);
        }
    }

    /// Lends an array with a copy of the content. It can be written, which costs less than to protect it.
    pub fn copied_array<T>(&mut self, content: &[u8], edge: Edge) -> *const T {
        self.lend(content.len(), edge);
        self.bytes_mut().copy_from_slice(content);
        self.array()
    }

    /// Lends an array that can be written, each of its bytes the given one.
    pub fn filled_array<T>(&mut self, fill: u8, edge: Edge) -> *mut T {
        self.filled(size_of::<T>(), fill, edge);
        self.array()
    }

    /// Lends bytes that can be written, each of them the given one, and answers where the first is.
    pub fn filled(&mut self, length: usize, fill: u8, edge: Edge) -> *mut u8 {
        self.lend(length, edge);
        self.bytes_mut().fill(fill);
        self.first
    }

    /// The lent bytes as an array, which has their length.
    fn array<T>(&self) -> *mut T {
        let first = self.first.cast::<T>();
        assert_eq!(self.length, size_of::<T>());
        assert_eq!(first as usize % align_of::<T>(), 0);
        first
    }

    /// Lends bytes that can be written; they hold a pattern.
    pub fn blank(&mut self, length: usize, edge: Edge) {
        self.lend(length, edge);
        self.pattern_to(length);
        let pattern = std::mem::take(&mut self.pattern);
        self.bytes_mut().copy_from_slice(&pattern[..length]);
        self.pattern = pattern;
    }

    pub fn bytes(&self) -> &[u8] {
        // SAFETY: the bytes are part of the memory, which was zero from the start.
        unsafe { from_raw_parts(self.first, self.length) }
    }

    pub fn bytes_mut(&mut self) -> &mut [u8] {
        // SAFETY: as above, and the borrow is the only one.
        unsafe { from_raw_parts_mut(self.first, self.length) }
    }

    /// Sees that nothing around the lent bytes was written, nor any of those themselves but for the first `count`,
    /// where they were lent blank.
    pub fn stays_after(&self, count: usize) -> Result<(), String> {
        self.guards_stay()?;
        let (what, length) = (self.what, self.length);
        if count > length {
            return Err(format!("the {what} of {length} bytes has no {count}"));
        }
        let (now, before) = (self.bytes(), &self.pattern[..length]);
        if now[count..] == before[count..] {
            return Ok(());
        }
        let written = (count..length).find(|&at| now[at] != before[at]);
        let at = written.unwrap_or(count);
        Err(format!(
            "byte {at} of the {what} of {length} bytes was written"
        ))
    }

    /// Sees that the guard bytes are as they were.
    pub fn guards_stay(&self) -> Result<(), String> {
        let guard = match self.guard() {
            Some(guard) => guard,
            None => return Ok(()),
        };
        // SAFETY: the guard bytes are part of the memory, and nothing writes to them at present.
        let now = unsafe { from_raw_parts(guard, GUARD) };
        if now == &self.pattern[..GUARD] {
            return Ok(());
        }
        let side = match self.edge {
            Edge::Start => "behind",
            Edge::End => "before",
        };
        Err(format!("bytes {side} the {} were written", self.what))
    }

    /// Finds the place for the given number of bytes and sets the guard.
    fn lend(&mut self, length: usize, edge: Edge) {
        self.edge = edge;
        self.length = length;
        self.first = match &mut self.memory {
            Memory::Heap(bytes) => {
                *bytes = vec![0; length];
                bytes.as_mut_ptr()
            }
            Memory::Pages(pages) => {
                pages.make_writable();
                let room = pages.length - GUARD;
                assert!(length <= room, "{length} bytes are too many");
                match edge {
                    Edge::Start => pages.first,
                    Edge::End => pages.first.wrapping_add(pages.length - length),
                }
            }
        };
        self.pattern_to(GUARD);
        if let Some(guard) = self.guard() {
            // SAFETY: the guard bytes are part of the memory, which can be written.
            let bytes = unsafe { from_raw_parts_mut(guard, GUARD) };
            bytes.copy_from_slice(&self.pattern[..GUARD]);
        }
    }

    /// The first guard byte, if there are any.
    fn guard(&self) -> Option<*mut u8> {
        match (&self.memory, self.edge) {
            (Memory::Heap(_), _) => None,
            (Memory::Pages(_), Edge::Start) => Some(self.first.wrapping_add(self.length)),
            (Memory::Pages(_), Edge::End) => Some(self.first.wrapping_sub(GUARD)),
        }
    }

    /// Has at least the given number of bytes of the pattern at hand.
    fn pattern_to(&mut self, length: usize) {
        let known = self.pattern.len();
        self.pattern.extend((known..length).map(pattern));
    }
}

/// Byte k of what fills bytes that are lent to be written: one that a call is not likely to write by chance.
fn pattern(k: usize) -> u8 {
    (k * 7 + k / 256 + 0xa5) as u8
}
