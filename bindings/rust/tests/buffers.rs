//! The buffers for texts of what stays in memory are of the size of these texts, however much was received.

use mergejoin::{Identity, PatchLog, Patches, Replica};
use std::alloc::{GlobalAlloc, Layout, System};
use std::sync::atomic::{AtomicUsize, Ordering};

/// The allocator of the crate's buffers, which keeps the largest size. The library for C has its own.
struct Watching;

static LARGEST: AtomicUsize = AtomicUsize::new(0);

// SAFETY: each call is one of the system's allocator.
unsafe impl GlobalAlloc for Watching {
    unsafe fn alloc(&self, layout: Layout) -> *mut u8 {
        LARGEST.fetch_max(layout.size(), Ordering::Relaxed);
        // SAFETY: as the caller has it.
        unsafe { System.alloc(layout) }
    }

    unsafe fn dealloc(&self, memory: *mut u8, layout: Layout) {
        // SAFETY: as the caller has it.
        unsafe { System.dealloc(memory, layout) }
    }
}

#[global_allocator]
static ALLOCATOR: Watching = Watching;

/// A text has so many bytes, and is received so often. No buffer may have more than so many.
const LENGTH: usize = 100_000;
const REPEATS: u64 = 40;
const MOST: usize = 250_000;

/// Reads a text, and gives its length and the size of the largest buffer.
fn largest(read: impl FnOnce() -> String) -> (usize, usize) {
    LARGEST.store(0, Ordering::Relaxed);
    let length = read().len();
    (length, LARGEST.load(Ordering::Relaxed))
}

// One test, since what is largest is the process's.
#[test]
fn buffers_do_not_grow_by_repeats() {
    let patch = format!(r#"{{"a":"{}"}}"#, "x".repeat(LENGTH - 8));
    let (mut replica, mut patches) = (Replica::new("{}").unwrap(), Patches::new());
    let mut log = PatchLog::new(0, "{}").unwrap();
    for number in 0..REPEATS {
        let mut other = Patches::new();
        other.add(&patch).unwrap();
        patches.add(&patch).unwrap();
        patches.combine(&mut other).unwrap();
        replica.receive(&patch).unwrap();
        log.receive(0, Identity { sender: 1, number }, &patch)
            .unwrap();
    }
    for _ in 0..3 {
        for (length, most) in [
            largest(|| replica.document().unwrap()),
            largest(|| replica.joined().unwrap()),
            largest(|| patches.text().unwrap()),
            largest(|| patches.kept().unwrap()),
            largest(|| log.document().unwrap()),
        ] {
            assert_eq!(length, LENGTH);
            assert!((LENGTH..MOST).contains(&most), "{most}");
        }
    }
    log.receive(0, Identity { sender: 2, number: 1 }, r#"{"a":1}"#)
        .unwrap();
    for _ in 0..3 {
        let (_, most) = largest(|| {
            assert_eq!(log.conflicts().unwrap().len() as u64, REPEATS);
            String::new()
        });
        assert!(most < MOST, "{most}");
    }
    replica.set_limit(LENGTH);
    let (length, most) = largest(|| replica.document().unwrap());
    assert_eq!(length, LENGTH);
    assert!(most < LENGTH + 1000, "{most}");
}
