//! Memory between pages without access: a touch of them ends the program.

use std::cell::RefCell;
use std::ffi::c_void;

extern "C" {
    fn mmap(address: *mut c_void, size: usize, access: i32, kind: i32, file: i32, from: i64) -> *mut c_void;
    fn mprotect(address: *mut c_void, size: usize, access: i32) -> i32;
}

/// Linux's numbers: no access, reading and writing, memory of this process that is no file.
const NO_ACCESS: i32 = 0;
const READ_AND_WRITE: i32 = 3;
const PRIVATE_AND_NO_FILE: i32 = 0x22;

/// A size that is some pages on every machine; so much without access stands on each side.
const PAGES: usize = 65_536;

thread_local! {
    /// Rooms not in use, each by its mapping and size: to make one takes longer than a call.
    static SPARE: RefCell<Vec<(*mut u8, usize)>> = const { RefCell::new(Vec::new()) };
}

/// Whole pages with access, between pages without.
pub struct Room {
    map: *mut u8,
    size: usize,
}

impl Room {
    /// Room for some bytes at least; none for none.
    pub fn new(bytes: usize) -> Room {
        let size = (bytes + PAGES - 1) / PAGES * PAGES;
        let spare = SPARE.with(|spare| {
            let mut spare = spare.borrow_mut();
            let at = spare.iter().position(|(_, spare)| *spare == size)?;
            Some(spare.swap_remove(at).0)
        });
        Room { map: spare.unwrap_or_else(|| new_map(size)), size }
    }

    /// The first byte, right after a page without access.
    pub fn start(&self) -> *mut u8 {
        // SAFETY: inside the mapping.
        unsafe { self.map.add(PAGES) }
    }

    /// The end, where a page without access begins.
    pub fn end(&self) -> *mut u8 {
        // SAFETY: inside the mapping.
        unsafe { self.map.add(PAGES + self.size) }
    }
}

impl Drop for Room {
    fn drop(&mut self) {
        SPARE.with(|spare| spare.borrow_mut().push((self.map, self.size)));
    }
}

/// New memory: so many bytes with access, between pages without.
fn new_map(size: usize) -> *mut u8 {
    // SAFETY: asks for new memory, then for access to its middle.
    unsafe {
        let anywhere = std::ptr::null_mut();
        let map = mmap(anywhere, size + 2 * PAGES, NO_ACCESS, PRIVATE_AND_NO_FILE, -1, 0) as *mut u8;
        assert!(map as isize != -1, "mmap gives no memory");
        let access = size == 0 || mprotect(map.add(PAGES) as *mut c_void, size, READ_AND_WRITE) == 0;
        assert!(access, "mprotect gives no access");
        map
    }
}
