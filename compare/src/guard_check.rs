//! Shows that a touch outside what is lent at a page without access ends the program.

use crate::archive::{Element, Lent, Place};

extern "C" {
    fn fork() -> i32;
    fn waitpid(process: i32, status: *mut i32, options: i32) -> i32;
    fn signal(number: i32, handler: usize) -> usize;
    fn _exit(status: i32) -> !;
}

/// The signal of a fault of memory.
const FAULT: i32 = 11;

/// Ends the process with the signal's number.
extern "C" fn on_signal(number: i32) {
    // SAFETY: ends the process at once.
    unsafe { _exit(number) }
}

/// Says whether a touch is a fault of memory, by making it in a process of its own.
fn faults(touch: impl FnOnce()) -> bool {
    // SAFETY: this program has one thread, and its child ends right after the touch.
    unsafe {
        let child = fork();
        if child == 0 {
            signal(FAULT, on_signal as *const () as usize);
            touch();
            _exit(0)
        }
        let mut status = 0;
        assert!(child > 0 && waitpid(child, &mut status, 0) == child, "no process for a touch");
        assert!(status == 0 || status == FAULT << 8, "a touch ended its process with {status:#x}");
        status != 0
    }
}

/// Touches the element next to some that are lent, which must be a fault, and the first or last of them, which must not.
fn check<T: Element>(length: usize, place: Place, writes: bool) -> bool {
    let content = vec![T::GUARDS[0]; length];
    let mut lent = Lent::new(&content, place, false);
    let first = lent.pointer();
    let (outside, inside) = match place {
        Place::BeforePage => (length as isize, length as isize - 1),
        _ => (-1, 0),
    };
    // SAFETY: none for the touch outside, which is why a child process makes it.
    let touch = |at: isize| unsafe {
        let element = first.wrapping_offset(at);
        if writes {
            element.write_volatile(T::GUARDS[0]);
        } else {
            element.read_volatile();
        }
    };
    faults(|| touch(outside)) && (length == 0 || !faults(|| touch(inside)))
}

/// Makes all such touches; says how many were right, or ends the program where one was not.
pub fn run() {
    let mut made = 0;
    for place in [Place::BeforePage, Place::AfterPage] {
        for length in [0, 1, 5, 127, 1024, 16_384, 70_000] {
            for writes in [false, true] {
                let right = check::<u8>(length, place, writes)
                    && check::<u32>(length, place, writes)
                    && check::<usize>(length, place, writes);
                if !right {
                    let (what, side) = (if writes { "write" } else { "read" }, place);
                    println!("the guard does not work: a {what} next to {length} elements, {side:?}");
                    std::process::exit(1);
                }
                made += 3;
            }
        }
    }
    println!("{made} touches next to what was lent ended their process");
}
