//! What the millisecond that takes a cell makes of the drive, code by code.

use crate::events::Event;
use crate::rows::{idle, parsed, variants, CODES};
use crate::words::outcome;
use reference::instruction::Cell;
use reference::memory::{Drive, Remaining, Resolution, Running, Suspended};

/// A line of the table: its name, the texts of its cells, and what else such a drive has.
type Line = (&'static str, Vec<String>, fn(&mut Drive));

/// Name and outcome of each line. All cells of a line have the same outcome.
pub fn lines() -> Vec<(&'static str, String)> {
    let parts = [acting(), jumping(), indexed(), free(), recovering()];
    let lines = parts.into_iter().flatten();
    lines.map(|(name, texts, prepare)| (name, agreed(name, &texts, prepare))).collect()
}

fn agreed(name: &str, texts: &[String], prepare: fn(&mut Drive)) -> String {
    let cells = texts.iter().flat_map(|text| variants(text));
    let drives = cells.flat_map(|cell| waiting(cell, prepare));
    let outcomes: Vec<String> = drives.map(|drive| outcome(&drive, Event::Millisecond)).collect();
    let first = outcomes.first().expect("a line has a cell");
    assert!(outcomes.iter().all(|outcome| outcome == first), "{name}: {outcomes:?}");
    first.clone()
}

/// Drives that wait at cell 100, with each RS that allows x4 or with each that doesn't.
fn waiting(cell: Cell, prepare: fn(&mut Drive)) -> [Drive; 4] {
    use Resolution::*;
    let mut drive = idle();
    drive.position = 77;
    drive.cells[0] = cell;
    drive.running = Running { cell: 100, loop_count: 3, ..Running::IDLE };
    prepare(&mut drive);
    let alike = match drive.presets.resolution {
        D0 | D1 | B0 | B1 => [D0, D1, B0, B1],
        D2 | D3 | B2 | B3 => [D2, D3, B2, B3],
    };
    alike.map(|resolution| {
        drive.presets.resolution = resolution;
        assert!(drive.sound());
        drive
    })
}

fn texts(codes: &[&str]) -> Vec<String> {
    let chosen = CODES.iter().filter(|(code, _)| codes.contains(code));
    chosen.map(|(_, text)| text.to_string()).collect()
}

fn text(text: &str) -> Vec<String> {
    vec![text.to_string()]
}

fn as_it_is(_: &mut Drive) {}

fn acting() -> Vec<Line> {
    vec![
        ("00", texts(&["00"]), as_it_is),
        ("00, next 000", text("00,000"), as_it_is),
        ("57", texts(&["57"]), as_it_is),
        ("58", texts(&["58"]), as_it_is),
        ("60", texts(&["60"]), as_it_is),
        ("70", texts(&["70"]), as_it_is),
        ("61", texts(&["61"]), as_it_is),
        ("65", text("65,5,101"), as_it_is),
        ("65 of 0", text("65,0,101"), as_it_is),
    ]
}

fn jumping() -> Vec<Line> {
    vec![
        ("62, loop count 2 or more", texts(&["62"]), as_it_is),
        ("62, loop count 1", texts(&["62"]), |drive| drive.running.loop_count = 1),
        ("62, loop count 0", texts(&["62"]), |drive| drive.running.loop_count = 0),
        ("63, II equals V", text("63,F3,0,120,101"), as_it_is),
        ("63, II does not", text("63,F3,1,120,101"), as_it_is),
    ]
}

fn indexed() -> Vec<Line> {
    let all = || texts(&["01", "11", "21", "31"]);
    let with_steps = |steps: &str| all().iter().map(|text| text.replace("s5", steps)).collect();
    let x4 = || all().iter().map(|text| text.replace('X', "x4")).collect();
    vec![
        ("01 31 11 21", all(), as_it_is),
        ("01 31 11 21, n is 0", with_steps("+0"), as_it_is),
        ("01 31 11 21, absolute", all(), |drive| drive.presets.absolute = true),
        ("01 31 11 21, absolute, n is the position", with_steps("+77"), |drive| {
            drive.presets.absolute = true
        }),
        ("01 31 11 21, absolute, shift beyond 8388607", with_steps("-8388607"), |drive| {
            drive.presets.absolute = true
        }),
        ("01 31 11 21 at x4, RS D0 D1 B0 B1", x4(), |drive| {
            drive.presets.resolution = Resolution::D0
        }),
    ]
}

fn free() -> Vec<Line> {
    let all = || texts(&["02", "05", "12", "22", "32"]);
    let x4 = || all().iter().map(|text| text.replace('X', "x4")).collect();
    vec![
        ("02 32 12 22 05", all(), as_it_is),
        ("02 32 12 22 05, input ES on", all(), |drive| drive.inputs.es = true),
        ("02 32 12 22 05 at x4, RS D0 D1 B0 B1", x4(), |drive| {
            drive.presets.resolution = Resolution::D0
        }),
        ("the same, and input ES on", x4(), |drive| {
            drive.presets.resolution = Resolution::D0;
            drive.inputs.es = true;
        }),
        ("03, PX off", texts(&["03"]), as_it_is),
        ("03, PX on", texts(&["03"]), |drive| drive.inputs.px = true),
        ("03, PX off, input ES on", texts(&["03"]), |drive| drive.inputs.es = true),
    ]
}

/// A record at cell 150, which holds the cell given.
fn recorded(drive: &mut Drive, cell: &str, remaining: Remaining) {
    drive.cells[50] = parsed(cell);
    drive.suspended = Suspended { cell: 150, remaining, loop_count: 7 };
}

fn recovering() -> Vec<Line> {
    vec![
        ("69, record empty", text("69"), |drive| drive.suspended = Suspended::EMPTY),
        ("69, record of a 65 with a rest", text("69"), |drive| {
            recorded(drive, "65,9,151", Remaining::Milliseconds(5))
        }),
        ("69, record of a 65 with rest 0", text("69"), |drive| {
            recorded(drive, "65,9,151", Remaining::Nothing)
        }),
        ("69, record of a 01 with a rest", text("69"), |drive| {
            recorded(drive, "01,05,20,+9,x4,151", Remaining::Steps(5))
        }),
        ("the same, RS D0 D1 B0 B1", text("69"), |drive| {
            recorded(drive, "01,05,20,+9,x4,151", Remaining::Steps(5));
            drive.presets.resolution = Resolution::D0;
        }),
        ("69, record of a 02", text("69"), |drive| {
            recorded(drive, "02,05,20,+,x4,151", Remaining::Nothing)
        }),
        ("69, record of a 02, input ES on", text("69"), |drive| {
            recorded(drive, "02,05,20,+,x4,151", Remaining::Nothing);
            drive.inputs.es = true;
        }),
        ("69, record of a 69", text("69"), |drive| recorded(drive, "69", Remaining::Nothing)),
    ]
}
