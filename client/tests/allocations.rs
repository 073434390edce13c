//! Whether lists are carried out without allocating. A test program of its own, with one test: it
//! counts what the whole process allocates.

mod common;

use common::{engine, PROGRAM};
use cuminhamper::{List, Seen};
use std::alloc::{GlobalAlloc, Layout, System};
use std::sync::atomic::{AtomicUsize, Ordering};

struct Counting;

static ALLOCATIONS: AtomicUsize = AtomicUsize::new(0);

unsafe impl GlobalAlloc for Counting {
    unsafe fn alloc(&self, layout: Layout) -> *mut u8 {
        ALLOCATIONS.fetch_add(1, Ordering::Relaxed);
        System.alloc(layout)
    }

    unsafe fn dealloc(&self, place: *mut u8, layout: Layout) {
        System.dealloc(place, layout)
    }
}

#[global_allocator]
static COUNTING: Counting = Counting;

#[test]
fn lists_into_a_lent_vector_allocate_nothing_once_all_is_long_enough() {
    let mut engine = engine();
    let (mut list, mut seen) = (List::new(), Vec::new());
    let mut counted = Vec::with_capacity(3);
    for round in 0..100 {
        let before = ALLOCATIONS.load(Ordering::Relaxed);
        list.clear();
        for text in PROGRAM {
            list.string(text, 64).unwrap();
        }
        list.millisecond().unwrap().travel(96).unwrap().order().unwrap();
        list.string(b"00EE\r", 64).unwrap();
        engine.perform_into(&list, &mut seen).unwrap();
        assert_eq!(seen[6], Seen::Travel(40));
        if [0, 1, 99].contains(&round) {
            counted.push(ALLOCATIONS.load(Ordering::Relaxed) - before);
        }
    }
    assert!(counted[0] > 0, "the count is no count");
    assert_eq!(counted[1..], [0, 0]);
}
