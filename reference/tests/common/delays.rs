//! Delays and loop counts at the ends of their ranges, and delays of more than 16 bits: scripts store
//! them, wait in them, stop and resume them, and keep them in images, each at least so many times.

use crate::coverage::{all_counted, count, fields, reply, stopped, taken, Counts, Happening};
use crate::images::fault_before;
use crate::scripts::{walk, Call, Moment};
use reference::instruction::{Cell, Instruction};
use reference::memory::{Drive, Phase, Remaining};
use reference::wait::End;

/// 01: "65 nnn (0 to 65,535)". What a 65 takes beyond it is a longer delay.
const LONGEST_BEFORE: u32 = 65_535;

/// 02: "Code 65 takes 0 to 8,388,607 milliseconds"
const LONGEST: u32 = 8_388_607;

/// A code, its number, and what a WN that is else in order gets.
const ENDS: [&str; 6] =
    ["65 65535 Y", "65 65536 Y", "65 8388607 Y", "65 8388608 N", "61 65535 Y", "61 65536 N"];

fn is_longer(cell: &Cell) -> bool {
    match cell.instruction {
        Instruction::TimeDelay { milliseconds } => milliseconds > LONGEST_BEFORE,
        _ => false,
    }
}

const HAPPENINGS: [Happening; 10] = [
    ("a wait is spent, and more than 16 bits are left", |m| {
        spent(m) && m.before.running.phase == Phase::Delay && left(m.after) > LONGEST_BEFORE
    }),
    ("a wait is spent, and 16 bits are left of a longer delay", |m| {
        spent(m) && in_longer_delay(m.before) && (1..=LONGEST_BEFORE).contains(&left(m.after))
    }),
    ("a wait of 1,000,000 is spent within a longer delay", |m| {
        m.seen.wait == Some((End::Spent, 1_000_000)) && in_longer_delay(m.after)
    }),
    ("a longer delay ends in a wait", |m| {
        m.seen.wait.is_some() && in_longer_delay(m.before) && m.after.running.phase != Phase::Delay
    }),
    ("a stop records more than 16 bits", |m| {
        stopped(m) && left(m.before) > LONGEST_BEFORE && recorded(m.after) == left(m.before)
    }),
    ("a 69 resumes more than 16 bits", |m| taken(m, "69") && left(m.after) > LONGEST_BEFORE),
    ("an image with a longer delay is written", |m| {
        matches!(m.call, Call::Image { .. })
            && m.seen.answer.is_some()
            && m.before.cells[..128].iter().any(is_longer)
    }),
    ("an image with a longer delay is read", |m| {
        matches!(m.call, Call::Load(_))
            && m.seen.refusal.is_none()
            && m.after.cells.iter().any(is_longer)
    }),
    ("a raw delay lasts longer than any 65", |m| raw(m) && left(m.after) > LONGEST),
    ("a raw record has more left than any 65", |m| raw(m) && recorded(m.after) > LONGEST),
];

fn spent(m: &Moment) -> bool {
    matches!(m.seen.wait, Some((End::Spent, _)))
}

/// A raw write that leaves the record sound.
fn raw(m: &Moment) -> bool {
    matches!(m.call, Call::Raw(_)) && m.after.sound()
}

fn in_longer_delay(drive: &Drive) -> bool {
    drive.running.phase == Phase::Delay && is_longer(&drive.present())
}

/// The milliseconds that are left of a delay under way.
fn left(drive: &Drive) -> u32 {
    milliseconds(drive.running.remaining)
}

/// The milliseconds in the interrupted record.
fn recorded(drive: &Drive) -> u32 {
    milliseconds(drive.suspended.remaining)
}

fn milliseconds(remaining: Remaining) -> u32 {
    match remaining {
        Remaining::Milliseconds(left) => left,
        _ => 0,
    }
}

/// The code of a WN with one number, the number, and the answer. Nothing where another field than
/// the number is wrong.
fn stored_count(m: &Moment) -> Option<String> {
    let fields = fields(m);
    let [command, cell, code, number, next] = fields.as_slice() else { return None };
    let mut drive = *m.before;
    let text = format!("{:02}{command},{cell},{code},1,{next}\r", drive.presets.address);
    let mut buffer = [0; 64];
    let in_order = drive.string(text.as_bytes(), &mut buffer) == Ok(Some(4)) && buffer[2] == b'Y';
    let number: u32 = number.parse().ok().filter(|_| in_order && command == "WN")?;
    Some(format!("{code} {number} {}", reply(m)))
}

pub fn ends(scripts: &[Vec<Call>], least: usize) {
    let mut counts = Counts::new();
    walk(scripts, |moment| {
        let stored = stored_count(&moment).filter(|key| ENDS.contains(&key.as_str()));
        stored.iter().for_each(|key| count(&mut counts, key));
    });
    all_counted(&counts, &ENDS.map(str::to_string), least);
}

pub fn happenings(scripts: &[Vec<Call>], least: usize) {
    let mut counts = Counts::new();
    walk(scripts, |moment| {
        if moment.before.sound() || raw(&moment) {
            let happened = HAPPENINGS.iter().filter(|(_, known)| known(&moment));
            happened.for_each(|(name, _)| count(&mut counts, name));
        }
    });
    all_counted(&counts, &HAPPENINGS.map(|(name, _)| name.to_string()), least);
}

/// 02: "Older images are read as before, byte for byte"; "An older gateway refuses an image with a
/// longer wait by 10, and never shows a shorter one."
pub fn older_gateways(scripts: &[Vec<Call>], least: usize) {
    let (mut older, mut longer) = (0, 0);
    walk(scripts, |moment| {
        let Call::Load(bytes) = moment.call else { return };
        if moment.seen.refusal.is_some() {
            return assert!(fault_before(bytes).is_some());
        }
        let held = moment.after.cells.iter().any(is_longer);
        assert_eq!(fault_before(bytes), held.then(|| "65.1 above".to_string()));
        older += usize::from(!held);
        longer += usize::from(held);
    });
    assert!(older >= least && longer >= least, "{older} older images, {longer} with a longer wait");
}
