//! Memory to be lent. Each buffer stands against a page that may not be touched, at its front or at its end; the bytes to the
//! other such page hold a pattern.

use std::ffi::c_void;
use std::fs::{File, OpenOptions};
use std::io::Result;
use std::os::unix::io::AsRawFd;
use std::path::Path;

extern "C" {
    fn mmap(address: *mut c_void, length: usize, protection: i32, flags: i32, file: i32, offset: i64) -> *mut c_void;
    fn mprotect(address: *mut c_void, length: usize, protection: i32) -> i32;
    fn munmap(address: *mut c_void, length: usize) -> i32;
}

const PROT_NONE: i32 = 0;
const PROT_READ_WRITE: i32 = 3;
const MAP_SHARED: i32 = 1;
const MAP_PRIVATE_ANONYMOUS: i32 = 0x22;
const FAILED: *mut c_void = !0 as *mut c_void;

/// A multiple of every page size in use.
const PAGES: usize = 65_536;

/// The sizes of fields; a buffer takes the smallest that holds it.
const SIZES: [usize; 3] = [PAGES, 2 * PAGES, 16 * PAGES];

/// Where a buffer stands in its field.
#[derive(Clone, Copy, Debug, PartialEq)]
pub enum Side {
    Front,
    End,
}

/// Writable bytes between two stretches that may not be touched.
struct Field {
    start: *mut u8,
    size: usize,
    /// Where the buffer stands now.
    from: usize,
    to: usize,
}

impl Field {
    fn new(size: usize) -> Field {
        // A fresh private mapping of this size, the two ends of which are then shut.
        unsafe {
            let whole = mmap(std::ptr::null_mut(), size + 2 * PAGES, PROT_READ_WRITE, MAP_PRIVATE_ANONYMOUS, -1, 0);
            assert!(whole != FAILED, "no memory for a field");
            let start = (whole as *mut u8).add(PAGES);
            assert_eq!(mprotect(whole, PAGES, PROT_NONE), 0);
            assert_eq!(mprotect(start.add(size) as *mut c_void, PAGES, PROT_NONE), 0);
            Field { start, size, from: 0, to: 0 }
        }
    }

    fn bytes(&mut self) -> &mut [u8] {
        // The field is mapped for as long as it lives, and lent to one call at a time.
        unsafe { std::slice::from_raw_parts_mut(self.start, self.size) }
    }
}

impl Drop for Field {
    fn drop(&mut self) {
        // The mapping made in `new`.
        unsafe {
            munmap(self.start.sub(PAGES) as *mut c_void, self.size + 2 * PAGES);
        }
    }
}

/// The fields of one lent buffer, one of each size.
pub struct Lender {
    fields: Vec<Field>,
    at: usize,
    pattern: Vec<u8>,
}

impl Lender {
    pub fn new() -> Lender {
        let fields: Vec<Field> = SIZES.iter().map(|size| Field::new(*size)).collect();
        let pattern = (0..SIZES[2]).map(|i| (i * 37 + i / 251) as u8 ^ 0x5a).collect();
        Lender { fields, at: 0, pattern }
    }

    /// Puts a buffer against one side of a field and fills the rest with the pattern.
    pub fn lend(&mut self, buffer: &[u8], side: Side) -> *mut u8 {
        self.at = SIZES.iter().position(|size| buffer.len() <= *size).expect("a field that holds the buffer");
        let field = &mut self.fields[self.at];
        field.from = match side {
            Side::Front => 0,
            Side::End => field.size - buffer.len(),
        };
        field.to = field.from + buffer.len();
        let (from, to) = (field.from, field.to);
        let bytes = field.bytes();
        bytes[..from].copy_from_slice(&self.pattern[..from]);
        bytes[from..to].copy_from_slice(buffer);
        let behind = bytes.len() - to;
        bytes[to..].copy_from_slice(&self.pattern[..behind]);
        bytes[from..].as_mut_ptr()
    }

    /// The first byte of the buffer that is not as expected, if any, and what stands there.
    pub fn difference(&mut self, expected: &[u8]) -> Option<(usize, u8)> {
        let field = &mut self.fields[self.at];
        let (from, to) = (field.from, field.to);
        let buffer = &field.bytes()[from..to];
        if buffer == expected {
            return None;
        }
        let at = (0..buffer.len()).find(|i| buffer[*i] != expected[*i])?;
        Some((at, buffer[at]))
    }

    /// Whether the buffer begins with these bytes.
    pub fn begins_with(&mut self, bytes: &[u8]) -> bool {
        let field = &mut self.fields[self.at];
        let (from, to) = (field.from, field.to);
        field.bytes()[from..to].starts_with(bytes)
    }

    /// The first byte outside the buffer that was written, counted from the buffer's begin.
    pub fn outside(&mut self) -> Option<i64> {
        let field = &mut self.fields[self.at];
        let (from, to) = (field.from, field.to);
        let bytes = field.bytes();
        let behind = bytes.len() - to;
        if bytes[..from] == self.pattern[..from] && bytes[to..] == self.pattern[..behind] {
            return None;
        }
        let before = (0..from).find(|i| bytes[*i] != self.pattern[*i]);
        let after = (to..bytes.len()).find(|i| bytes[*i] != self.pattern[*i - to]);
        before.or(after).map(|i| i as i64 - from as i64)
    }
}

/// The bytes of a slice of numbers.
pub fn bytes_of<T: Copy>(numbers: &[T]) -> &[u8] {
    // Used for u8, u32, i32 and u64, which have no gaps; the bytes live as long as the numbers.
    unsafe { std::slice::from_raw_parts(numbers.as_ptr() as *const u8, std::mem::size_of_val(numbers)) }
}

/// A file of one line that outlives a crash: seed and number of the case at hand.
pub struct LastCase {
    bytes: *mut u8,
    _file: File,
}

const LINE: usize = 42;

impl LastCase {
    pub fn new(path: &Path) -> Result<LastCase> {
        let file = OpenOptions::new().read(true).write(true).create(true).truncate(true).open(path)?;
        file.set_len(LINE as u64)?;
        // A shared mapping of the whole file.
        let bytes = unsafe { mmap(std::ptr::null_mut(), LINE, PROT_READ_WRITE, MAP_SHARED, file.as_raw_fd(), 0) };
        assert!(bytes != FAILED, "the file of the last case cannot be mapped");
        Ok(LastCase { bytes: bytes as *mut u8, _file: file })
    }

    pub fn note(&mut self, seed: u64, number: u64) {
        let line = format!("{seed:20} {number:20}\n");
        // The mapping has exactly the line's length.
        unsafe { std::slice::from_raw_parts_mut(self.bytes, LINE) }.copy_from_slice(line.as_bytes());
    }
}
