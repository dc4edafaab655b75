//! All memory comes from the program's global allocator, and goes back there as it came.

// It starts itself anew, which Miri can't.
#![cfg(not(miri))]

use std::alloc::{GlobalAlloc, Layout, System};
use std::cell::Cell;
use std::process::Command;
use std::sync::atomic::{AtomicBool, Ordering};
use std::sync::Mutex;

use piper::pipe;

/// Hands out the system's memory, and keeps a list of what is out while it is told to.
struct Counting;

thread_local! {
    /// Whether what this thread asks for is counted.
    static COUNTS: Cell<bool> = const { Cell::new(false) };
}
static REFUSES: AtomicBool = AtomicBool::new(false);
static OUT: Mutex<Vec<(usize, Layout)>> = Mutex::new(Vec::new());
static MISTAKES: Mutex<Vec<&str>> = Mutex::new(Vec::new());

// SAFETY: memory is that of the system, asked for and given back as the caller says.
unsafe impl GlobalAlloc for Counting {
    unsafe fn alloc(&self, layout: Layout) -> *mut u8 {
        if REFUSES.load(Ordering::SeqCst) && layout.size() > 1_000_000 {
            return std::ptr::null_mut();
        }
        // SAFETY: as above.
        let at = unsafe { System.alloc(layout) };
        // What the list itself takes isn't counted.
        if COUNTS.replace(false) {
            OUT.lock().unwrap().push((at as usize, layout));
            COUNTS.set(true);
        }
        at
    }

    unsafe fn dealloc(&self, at: *mut u8, layout: Layout) {
        if COUNTS.replace(false) {
            let mut out = OUT.lock().unwrap();
            match out.iter().position(|it| it.0 == at as usize) {
                Some(found) if out[found].1 == layout => drop(out.swap_remove(found)),
                Some(_) => MISTAKES.lock().unwrap().push("given back with another layout"),
                None => MISTAKES.lock().unwrap().push("given back, and never asked for"),
            }
            COUNTS.set(true);
        }
        // SAFETY: as above.
        unsafe { System.dealloc(at, layout) };
    }
}

#[global_allocator]
static HEAP: Counting = Counting;

const REFUSED: &str = "PIPER_TEST_IS_REFUSED";

#[test]
fn each_block_goes_back_as_it_came() {
    if std::env::var_os(REFUSED).is_some() {
        REFUSES.store(true, Ordering::SeqCst);
        let _pipe = pipe(2_000_000);
        return;
    }
    for capacity in [1, 7, 8, 1_000, 70_000, 1 << 20] {
        COUNTS.set(true);
        let (mut reader, mut writer) = pipe(capacity);
        COUNTS.set(false);
        let blocks: Vec<usize> = OUT.lock().unwrap().iter().map(|it| it.1.size()).collect();
        COUNTS.set(true);
        writer.try_fill(b"some bytes");
        reader.try_drain(&mut [0; 4]);
        drop(writer);
        drop(reader);
        COUNTS.set(false);
        assert_eq!(*OUT.lock().unwrap(), []);
        assert_eq!(*MISTAKES.lock().unwrap(), [""; 0]);
        assert!(matches!(blocks[..], [size] if (capacity..capacity + 300).contains(&size)));
    }
}

#[test]
fn a_refusal_ends_the_program_as_any_allocation_does() {
    let this = std::env::current_exe().unwrap();
    let run =
        Command::new(this).env(REFUSED, "1").args(["--exact", "each_block_goes_back_as_it_came"]).output().unwrap();
    let said = String::from_utf8_lossy(&run.stderr);
    assert!(!run.status.success());
    let mut words = said.split_once("memory allocation of ").unwrap().1.split(' ');
    let refused: usize = words.next().unwrap().parse().unwrap();
    assert!((2_000_000..2_001_000).contains(&refused), "{said}");
}
