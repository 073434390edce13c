//! The threads of linked engines. A test program of its own, with one test: it looks at the whole
//! process.
#![cfg(feature = "linked")]

use cuminhamper::{Engine, List};
use std::thread;
use std::time::{Duration, Instant};

/// Open descriptors, and threads.
fn held() -> (usize, usize) {
    let count = |folder| std::fs::read_dir(folder).unwrap().count();
    (count("/proc/self/fd"), count("/proc/self/task"))
}

/// The mask of blocked signals of the threads of that name.
fn blocked(name: &str) -> Vec<u64> {
    let tasks = std::fs::read_dir("/proc/self/task").unwrap();
    let statuses =
        tasks.map(|task| std::fs::read_to_string(task.unwrap().path().join("status")).unwrap());
    statuses
        .filter(|status| status.starts_with(&format!("Name:\t{name}\n")))
        .map(|status| {
            let mask = status.lines().find_map(|line| line.strip_prefix("SigBlk:\t")).unwrap();
            u64::from_str_radix(mask, 16).unwrap()
        })
        .collect()
}

fn the_engine_takes_no_signals() {
    // Hang-up, interrupt, user 1, pipe, alarm, end, child; not kill and stop, which nothing blocks.
    let signals =
        [1, 2, 10, 13, 14, 15, 17].iter().fold(0, |mask, signal| mask | 1 << (signal - 1));
    let _engine = Engine::start().unwrap();
    let masks = blocked("engine");
    assert_eq!(masks.len(), 1);
    assert_eq!(masks[0] & signals, signals, "{:x}", masks[0]);
    let own = std::fs::read_to_string("/proc/thread-self/status").unwrap();
    assert!(own.contains("SigBlk:\t0000000000000000\n"), "the caller's mask is as it was");
}

fn dropping_leaves_no_descriptor_and_no_thread() {
    let before = held();
    let mut list = List::new();
    while list.order().is_ok() {}
    for round in 0..100 {
        let mut engine = Engine::start().unwrap();
        engine.millisecond().unwrap();
        if round % 2 == 0 {
            engine.send(&list).unwrap();
        }
    }
    // A thread that was joined may be listed for a moment more.
    let began = Instant::now();
    while held() != before && began.elapsed() < Duration::from_secs(5) {
        thread::sleep(Duration::from_millis(1));
    }
    assert_eq!(held(), before);
}

#[test]
fn threads_take_no_signals_and_end() {
    the_engine_takes_no_signals();
    dropping_leaves_no_descriptor_and_no_thread();
}
