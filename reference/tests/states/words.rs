//! What an event has made of a drive, in words.

use crate::events::{Back, Event};
use crate::rows::forward;
use reference::instruction::Instruction;
use reference::memory::{Drive, Fault, Phase, Suspended};
use reference::reasons::phase_name;

/// Gives an event to a drive and says what it has become; `-` where nothing changes.
pub fn outcome(before: &Drive, event: Event) -> String {
    let mut after = *before;
    let back = event.give(&mut after);
    assert!(after.sound(), "{before:?}");
    if let Event::String("ES" | "EE") = event {
        assert_eq!(back, Back::Yes, "a stop is answered Y");
    }
    if let Some(words) = not_taken(&back) {
        assert_eq!(*before, after, "what is refused, silent or N changes nothing");
        return words;
    }
    let mut words = vec![];
    words.extend((back == Back::Value).then(|| "answered".to_string()));
    words.extend(moved(before, &after, event));
    words.extend(became(before, &after));
    words.extend((event == Event::AtSpeed).then(|| "mark".to_string()));
    words.extend(acted(before, &after, event).map(str::to_string));
    words.extend(counted(before, &after).map(str::to_string));
    words.extend(record(before, &after));
    words.extend(error(before, &after));
    if words.is_empty() {
        return "-".to_string();
    }
    words.join(", ")
}

fn not_taken(back: &Back) -> Option<String> {
    match back {
        Back::Refused(number) => Some(format!("refused {number}")),
        Back::Silent => Some("silent".to_string()),
        Back::No => Some("N".to_string()),
        Back::Accepted | Back::Yes | Back::Value => None,
    }
}

/// A step, along the direction of the run or against it.
fn moved(before: &Drive, after: &Drive, event: Event) -> Option<String> {
    if event != Event::Step {
        return None;
    }
    let ahead = after.position - before.position;
    assert_eq!(ahead.abs(), 1, "a step moves the position by one");
    let along = (ahead == 1) == forward(before.present().instruction);
    let from = if before.present().instruction.forward().is_some() { "s" } else { "n" };
    Some(format!("{} {from}", if along { "along" } else { "against" }))
}

/// The present cell, the phase and the rest.
fn became(before: &Drive, after: &Drive) -> Option<String> {
    let (was, is) = (before.running, after.running);
    if is.cell == 0 {
        return (was.cell != 0).then(|| "idle".to_string());
    }
    if is.cell != was.cell {
        return Some(place(after));
    }
    if is.phase != was.phase {
        return Some(with_rest(after));
    }
    (is.remaining != was.remaining).then(|| {
        assert_eq!(is.remaining.number().abs() + 1, was.remaining.number().abs());
        "rest one less".to_string()
    })
}

/// The cell that a drive has come to, by its address.
fn place(after: &Drive) -> String {
    let name = match after.running.cell {
        101 => "next cell".to_string(),
        102 => "waiting at cell 100 + S".to_string(),
        120 => "cell EEE".to_string(),
        150 => "the record's cell".to_string(),
        151 => "next cell of the record's cell".to_string(),
        160 => "waiting at cell BBB".to_string(),
        other => format!("cell {other}"),
    };
    match after.running.phase {
        Phase::Waiting => name,
        _ => format!("{name}: {}", with_rest(after)),
    }
}

/// The phase, and its rest where one begins to be counted.
fn with_rest(after: &Drive) -> String {
    let phase = phase_name(after.running.phase);
    let rest = after.running.remaining.number();
    match (after.running.phase, after.present().instruction) {
        (Phase::Braking, run @ Instruction::DelayedStop { steps, .. }) => {
            let distance = i64::from(steps) * i64::from(run.multiplier());
            assert_eq!(rest.abs(), distance.max(1));
            assert_eq!(rest > 0, forward(run));
            format!("{phase}, rest nnn×m, or 1")
        }
        (Phase::Delay, Instruction::TimeDelay { milliseconds }) => {
            let named = if rest == i64::from(milliseconds) { "nnn" } else { "of the record" };
            format!("{phase}, rest {named}")
        }
        (Phase::Run, run) if run.is_indexed() => format!("{phase}, rest {}", shift(after)),
        _ => phase.to_string(),
    }
}

/// How the rest of an indexed run that has just begun is counted.
fn shift(after: &Drive) -> &'static str {
    use Instruction::*;
    let rest = after.running.remaining.number();
    let run = after.present().instruction;
    let (IndexedRamp { steps, .. }
    | IndexedRampFine { steps, .. }
    | Indexed { steps, .. }
    | IndexedFine { steps, .. }) = run
    else {
        panic!("{run:?} is not indexed")
    };
    if rest == i64::from(steps) * i64::from(run.multiplier()) && !after.presets.absolute {
        return "n×m";
    }
    if rest == i64::from(steps) - i64::from(after.position) && after.presets.absolute {
        return "n less position";
    }
    "of the record"
}

/// What a cell that is taken does beside going on.
fn acted(before: &Drive, after: &Drive, event: Event) -> Option<&'static str> {
    if before.cam != after.cam {
        Some("cam")
    } else if before.outputs.cu != after.outputs.cu {
        Some("CU")
    } else if before.outputs != after.outputs {
        Some("output")
    } else if before.position != after.position && event != Event::Step {
        assert_eq!(after.position, 0);
        Some("position 0")
    } else {
        None
    }
}

/// What becomes of the loop count of a drive that stays busy.
fn counted(before: &Drive, after: &Drive) -> Option<&'static str> {
    let (was, is) = (before.running.loop_count, after.running.loop_count);
    if was == is || after.idle() {
        return None;
    }
    match before.present().instruction {
        Instruction::OpeningLoop { count } if count == is => Some("loop count nnn"),
        Instruction::ClosingLoop { .. } if was == is + 1 => Some("loop count one less"),
        Instruction::Recovery if is == before.suspended.loop_count => Some("loop count restored"),
        other => panic!("{other:?} makes a loop count of {is} from {was}"),
    }
}

fn record(before: &Drive, after: &Drive) -> Option<String> {
    if before.suspended == after.suspended {
        return None;
    }
    if after.suspended == Suspended::EMPTY {
        return Some("record empty".to_string());
    }
    let Suspended { cell, remaining, loop_count } = after.suspended;
    assert_eq!((cell, loop_count), (before.running.cell, before.running.loop_count));
    match remaining.number() {
        0 => Some("record: cell, 0".to_string()),
        rest => {
            assert_eq!(rest, before.running.remaining.number());
            Some("record: cell, rest".to_string())
        }
    }
}

fn error(before: &Drive, after: &Drive) -> Option<String> {
    match after.fault {
        fault if fault == before.fault => None,
        Fault::NONE => Some("error cleared".to_string()),
        Fault { code, cell } if cell == before.running.cell => Some(format!("error {code}")),
        Fault { code, cell } => {
            assert_eq!(cell, before.suspended.cell);
            Some(format!("error {code} of that cell"))
        }
    }
}
