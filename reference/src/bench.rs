//! `reference bench NAME COUNT`: the benchmarks of the program `bench`, call for call. Both write
//! the same sum of what each call showed, so both did the same work.

use crate::board::Order;
use crate::instruction::Cell;
use crate::lists::perform;
use crate::memory::Drive;
use crate::replay::weighted_sum;
use crate::usage::UsedCells;
use std::hint::black_box;
use Chain::{Down, Round, Up};

/// The codes, and the order in which the memory holds them.
const MIXED: [&str; 20] = [
    "01,10,20,+5000,x1,101",
    "31,125,30,-77,x4,000",
    "02,24,42,+,x1,150",
    "32,030,10,-,x4,160",
    "11,30,+8388607,x1,170",
    "21,2200,-9,x4,180",
    "12,02,-,x1,190",
    "22,0318,+,x4,000",
    "03,10,20,+,05,210",
    "05,15,25,-,0300,x4,220",
    "57,1,-55,110",
    "58,F3,1,120",
    "60,130",
    "61,300,140",
    "62,150,000",
    "63,S2,0,160,170",
    "65,400,180",
    "69",
    "70,1,190",
    "00,200",
];

/// The programs: a loop of five cells that never ends and never waits, a delay of 65,535, the longest
/// delay and the longest run.
const PROGRAMS: [(usize, &str); 8] = [
    (100, "61,65535,201"),
    (101, "58,F0,1,202"),
    (102, "63,F0,1,203,204"),
    (103, "58,F0,0,204"),
    (104, "62,201,200"),
    (110, "65,65535,210"),
    (111, "65,8388607,211"),
    (120, "01,10,20,+8388607,x4,220"),
];

/// What the cells of a walk over the whole memory hold, in turn.
const WALK: [&str; 5] =
    ["21,2200,-9,x4", "65,400", "11,30,+8388607,x1", "58,F3,1", "01,10,20,+5000,x4"];

/// Lists: a millisecond's worth of steps at 96,000 Hz in one travel, and the same with a millisecond
/// and the order behind it.
const TRAVEL: &[u8] = b"G\x60\0\0\0";
const BATCH: &[u8] = b"G\x60\0\0\0MB";

/// The drives of a line.
const DRIVES: usize = 48;

/// How cells 116 to 230 lead to one another.
enum Chain {
    /// From 116 to 230, and to 000.
    Up,
    /// From 230 to 116, and to 000.
    Down,
    /// From 116 to 230, and to 116 again.
    Round,
}

const NAMES: [&str; 28] = [
    "wn", "qm", "qa", "small", "ten", "negative", "inputs", "delay", "cell", "step", "refused",
    "halted", "order", "wait", "long", "short", "longest", "cells", "save", "load", "totals",
    "kept", "addup", "adddown", "addround", "offup", "offdown", "offround",
];

/// The sum that a benchmark writes, or all of them one after the other. `None` where there is no such benchmark.
pub fn bench(name: &str, count: u32) -> Option<u32> {
    let (idle, looping, delaying, moving) = ("00QA\r", "00PS,200\r", "00PS,210\r", "00PS,220\r");
    Some(match name {
        "wn" => strings(started(idle), "00WN,100,01,10,20,+5000,x1,101\r", count),
        "qm" => strings(started(idle), "00QM,100\r", count),
        "qa" => strings(started(idle), "00QA\r", count),
        "small" => positions(started(idle), count, |k| scattered(k, 10)),
        "ten" => positions(started(idle), count, |k| 1_000_000_000 + scattered(k, 1_147_483_648)),
        "negative" => positions(started(idle), count, |k| -100_000 - scattered(k, 900_000)),
        "inputs" => events(started(idle), count, |drive, k| drive.inputs(k % 8)),
        "delay" => events(started(delaying), count, |drive, _| drive.millisecond()),
        "cell" => events(started(looping), count, |drive, _| drive.millisecond()),
        "step" => events(started(moving), count, |drive, _| drive.step()),
        "refused" => events(started(idle), count, |drive, _| drive.step()),
        "halted" => events(started(idle), count, |drive, _| drive.halted()),
        "order" => orders(started(moving), count),
        "wait" => waits(started(looping), 1_000_000, count),
        "long" => waits(started(delaying), 1_000_000, count),
        "short" => waits(started(delaying), 60_000, count),
        "longest" => waits(started("00PS,211\r"), 1_000_000, count),
        "cells" => cells(started(idle)),
        "save" => saves(started(idle), count),
        "load" => loads(started(idle), count),
        "totals" => totals(walking(), count),
        "kept" => edits(chained(Up, &[100]), "00WN,100,65,5,116\r", count),
        "addup" => edits(chained(Up, &[]), "00WN,100,00,116\r", count),
        "adddown" => edits(chained(Down, &[]), "00WN,100,00,230\r", count),
        "addround" => edits(chained(Round, &[]), "00WN,100,00,116\r", count),
        "offup" => edits(chained(Up, &[100, 101]), "00WN,100,00,000\r", count),
        "offdown" => edits(chained(Down, &[100, 101]), "00WN,100,00,000\r", count),
        "offround" => edits(chained(Round, &[100, 101]), "00WN,100,00,000\r", count),
        "travel" => lists(started(moving), TRAVEL, count),
        "singles" => lists(started(moving), &[b'P'; 96], count),
        "batch" => lists(started(moving), BATCH, count),
        "line" => line(started(moving), count),
        "all" => NAMES.iter().try_fold(0, |sum, name| Some(added(sum, bench(name, count)?)))?,
        _ => return None,
    })
}

/// A full drive after a string and one millisecond.
fn started(text: &str) -> Drive {
    let mut drive = Drive::fresh(0).expect("01 takes address 0");
    let mixed = (0..131).map(|place| (place, MIXED[place * 7 % 20]));
    for (place, text) in mixed.chain(PROGRAMS) {
        drive.cells[place] = cell(text);
    }
    let _ = drive.string(text.as_bytes(), &mut [0; 64]);
    let _ = drive.millisecond();
    drive
}

/// A fresh drive whose 131 cells are one walk from 100 to 000: each goes on 37 places further round,
/// and the one that would lead back to 100 is the last.
fn walking() -> Drive {
    let mut drive = Drive::fresh(0).expect("01 takes address 0");
    for (place, held) in drive.cells.iter_mut().enumerate() {
        let next = match (place + 37) % 131 {
            0 => 0,
            further => 100 + further,
        };
        *held = cell(&format!("{},{next:03}", WALK[place % 5]));
    }
    drive
}

/// A fresh drive with a chain of 00s. Some of the first 16 cells lead to its head.
fn chained(chain: Chain, entries: &[usize]) -> Drive {
    let mut drive = Drive::fresh(0).expect("01 takes address 0");
    for address in 116..=230 {
        drive.cells[usize::from(address) - 100].next = match (&chain, address) {
            (Up, 230) | (Down, 116) => 0,
            (Round, 230) => 116,
            (Up | Round, _) => address + 1,
            (Down, _) => address - 1,
        };
    }
    let head = if let Down = chain { 230 } else { 116 };
    entries.iter().for_each(|entry| drive.cells[entry - 100].next = head);
    drive
}

fn cell(text: &str) -> Cell {
    let fields: Vec<&[u8]> = text.split(',').map(str::as_bytes).collect();
    Cell::parse(&fields).expect("a cell of the benchmarks is sound")
}

/// A string, whose eighth byte counts: of a WN or a QM that goes over ten cells.
fn strings(mut drive: Drive, first: &str, count: u32) -> u32 {
    let mut text = [b'.'; 32];
    text[..first.len()].copy_from_slice(first.as_bytes());
    let mut buffer = [0; 64];
    let mut sum = 0;
    for k in 0..count {
        text[7] = b'0' + (k % 10) as u8;
        let told = drive.string(&text[..first.len()], &mut buffer);
        let length = told.ok().flatten().unwrap_or_default() as u32;
        sum = added(sum, length * 256 + u32::from(buffer[10]));
        black_box(&mut drive);
    }
    sum
}

/// A QA of one position after another. Seen of an answer are its length and its last digit.
fn positions(mut drive: Drive, count: u32, position: impl Fn(u32) -> i32) -> u32 {
    let mut buffer = [0; 64];
    let mut sum = 0;
    for k in 0..count {
        drive.position = position(k);
        let told = drive.string(b"00QA\r", &mut buffer);
        let length = told.ok().flatten().unwrap_or_default();
        let last = length.checked_sub(2).map_or(0, |place| u32::from(buffer[place]));
        sum = added(sum, length as u32 * 256 + last);
        black_box(&mut drive);
    }
    sum
}

/// A number below a limit that tells nothing of the next one.
fn scattered(k: u32, limit: u64) -> i32 {
    (u64::from(k) * 2_654_435_761 % limit) as i32
}

/// Every byte that the cells show: the sum then says which memory the calls are made on.
fn cells(mut drive: Drive) -> u32 {
    (100..231).fold(0, |sum, cell| {
        let mut buffer = [0; 64];
        let told = drive.string(format!("00QM,{cell}\r").as_bytes(), &mut buffer);
        let length = told.ok().flatten().unwrap_or_default();
        added(sum, weighted_sum(&buffer[..length]) as u32)
    })
}

type Done = Result<(), u8>;

fn events(mut drive: Drive, count: u32, event: impl Fn(&mut Drive, u32) -> Done) -> u32 {
    let mut sum = 0;
    for k in 0..count {
        let done = event(&mut drive, k);
        sum = added(sum, seen(done.err(), &drive));
        black_box(&mut drive);
    }
    sum
}

/// IN counts, so that no order is the one before it.
fn orders(mut drive: Drive, count: u32) -> u32 {
    let mut sum = 0;
    for k in 0..count {
        drive.presets.current = (k % 4) as u8;
        sum = added(sum, order_seen(drive.order()));
        black_box(&mut drive);
    }
    sum
}

fn order_seen(order: Result<Order, u8>) -> u32 {
    match order {
        Err(_) => 0,
        Ok(Order::Stand { .. }) => 1,
        Ok(Order::Slow { .. }) => 2,
        Ok(Order::Run { hertz, remaining, current, .. }) => {
            hertz.wrapping_add(remaining as u32).wrapping_add(current.into())
        }
    }
}

fn waits(mut drive: Drive, budget: u32, count: u32) -> u32 {
    let mut sum = 0;
    for _ in 0..count {
        let waited = drive.wait(budget);
        sum = added(sum, waited.map_or(0, |(_, given)| given));
        sum = added(sum, seen(waited.err(), &drive));
        black_box(&mut drive);
    }
    sum
}

/// Images, each with another IN than the one before it.
fn saves(mut drive: Drive, count: u32) -> u32 {
    let mut buffer = [0; 2048];
    let mut sum = 0;
    for k in 0..count {
        drive.presets.current = (k % 4) as u8;
        let length = drive.image(&mut buffer).unwrap_or_default() as u32;
        sum = added(sum, length * 256 + u32::from(buffer[1]));
        black_box(&mut drive);
    }
    sum
}

/// One image, in which IN counts. Seen of a drive are IN and the next of cell 100.
fn loads(drive: Drive, count: u32) -> u32 {
    let mut buffer = [0; 2048];
    let length = drive.image(&mut buffer).unwrap_or_default();
    let mut sum = 0;
    for k in 0..count {
        buffer[1] = (k % 4) as u8;
        let loaded = Drive::load(&buffer[..length]);
        let seen =
            |loaded: &Drive| u32::from(loaded.presets.current) + u32::from(loaded.cells[0].next);
        sum = added(sum, loaded.as_ref().map_or(0, seen));
        let _ = black_box(loaded);
    }
    sum
}

/// Totals of the whole memory, IN another each time. Of the net steps 32 bits are seen.
fn totals(mut drive: Drive, count: u32) -> u32 {
    let mut sum = 0;
    for k in 0..count {
        drive.presets.current = (k % 4) as u8;
        sum = match drive.totals(100) {
            Ok(totals) => added(added(sum, totals.net as u32), totals.delay),
            Err(refusal) => added(sum, refusal.into()),
        };
        black_box(&mut drive);
    }
    sum
}

/// A WN of cell 100 with the map of used cells. Cell and map are put back each time, and IN is
/// another. Seen are the memory once, the length of each answer and whether 116 and 230 are used.
fn edits(mut drive: Drive, text: &str, count: u32) -> u32 {
    let (first, counted, memory) = (drive.cells[0], UsedCells::count(&drive), cells(drive));
    let mut buffer = [0; 64];
    let mut sum = 0;
    for k in 0..count {
        drive.presets.current = (k % 4) as u8;
        drive.cells[0] = first;
        let mut used = counted;
        let told = used.string(&mut drive, text.as_bytes(), &mut buffer);
        let length = told.ok().flatten().unwrap_or_default() as u32;
        let shown = u32::from(used.has(116)) + 2 * u32::from(used.has(230));
        sum = added(sum, length * 256 + shown);
        black_box((&mut drive, &mut used));
    }
    added(memory, sum)
}

/// One list after another to one drive.
fn lists(mut drive: Drive, list: &[u8], count: u32) -> u32 {
    let mut sum = 0;
    for _ in 0..count {
        sum = added(sum, list_seen(&mut drive, list));
        black_box(&mut drive);
    }
    sum
}

/// Rounds over the drives of a line, a list to each. IN counts over the drives, so that no order is
/// its neighbour's.
fn line(drive: Drive, count: u32) -> u32 {
    let mut drives = [drive; DRIVES];
    for (place, drive) in drives.iter_mut().enumerate() {
        drive.presets.current = (place % 4) as u8;
    }
    let mut sum = 0;
    for _ in 0..count {
        for drive in &mut drives {
            sum = added(sum, list_seen(drive, BATCH));
        }
        black_box(&mut drives);
    }
    sum
}

/// How many bytes are seen of a list, and their sum; or the number of its refusal.
fn list_seen(drive: &mut Drive, list: &[u8]) -> u32 {
    match perform(drive, list, 256) {
        Ok(seen) => seen.len() as u32 * 256 + seen.iter().map(|byte| u32::from(*byte)).sum::<u32>(),
        Err(refusal) => refusal.into(),
    }
}

fn added(sum: u32, seen: u32) -> u32 {
    ((u64::from(sum) * 31 + u64::from(seen)) % 1_000_003) as u32
}

/// What an event showed: its refusal and, of the drive after it, I0 and what a program changes.
fn seen(refusal: Option<u8>, drive: &Drive) -> u32 {
    let running = &drive.running;
    let shown = u32::from(refusal.unwrap_or(0)) + u32::from(drive.inputs.i[0]);
    let place = u32::from(running.cell) + u32::from(running.loop_count);
    (shown + place).wrapping_add(running.remaining.number() as u32)
}
