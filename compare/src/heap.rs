//! Heap in use, counted while a closure runs; otherwise the system's allocator with one test more.
use std::alloc::{GlobalAlloc, Layout, System};
use std::sync::atomic::{AtomicBool, AtomicUsize, Ordering::Relaxed};

static COUNTS: AtomicBool = AtomicBool::new(false);
static LIVE: AtomicUsize = AtomicUsize::new(0);
static PEAK: AtomicUsize = AtomicUsize::new(0);
static CALLS: AtomicUsize = AtomicUsize::new(0);

struct Counting;

#[global_allocator]
static ALLOCATOR: Counting = Counting;

fn taken(size: usize) {
    let live = LIVE.fetch_add(size, Relaxed) + size;
    PEAK.fetch_max(live, Relaxed);
    CALLS.fetch_add(1, Relaxed);
}

// Each call is passed on as it is.
unsafe impl GlobalAlloc for Counting {
    unsafe fn alloc(&self, layout: Layout) -> *mut u8 {
        if COUNTS.load(Relaxed) {
            taken(layout.size());
        }
        System.alloc(layout)
    }

    unsafe fn dealloc(&self, place: *mut u8, layout: Layout) {
        if COUNTS.load(Relaxed) {
            LIVE.fetch_sub(layout.size(), Relaxed);
        }
        System.dealloc(place, layout)
    }

    unsafe fn alloc_zeroed(&self, layout: Layout) -> *mut u8 {
        if COUNTS.load(Relaxed) {
            taken(layout.size());
        }
        System.alloc_zeroed(layout)
    }

    unsafe fn realloc(&self, place: *mut u8, layout: Layout, size: usize) -> *mut u8 {
        if COUNTS.load(Relaxed) {
            LIVE.fetch_sub(layout.size(), Relaxed);
            taken(size);
        }
        System.realloc(place, layout, size)
    }
}

/// Bytes that an answer holds, the most held while it was made, and the calls for memory.
pub struct Heap {
    pub held: usize,
    pub peak: usize,
    pub calls: usize,
}

/// Counts the heap of what a closure makes.
pub fn of<T>(make: impl FnOnce() -> T) -> Heap {
    for counter in [&LIVE, &PEAK, &CALLS] {
        counter.store(0, Relaxed);
    }
    COUNTS.store(true, Relaxed);
    let answer = make();
    let heap = Heap { held: LIVE.load(Relaxed), peak: PEAK.load(Relaxed), calls: CALLS.load(Relaxed) };
    COUNTS.store(false, Relaxed);
    drop(answer);
    heap
}
