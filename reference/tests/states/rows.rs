//! The rows of the page: drives in one phase, which every event treats alike.

use reference::instruction::{Cell, Instruction};
use reference::memory::{Drive, Fault, Phase, Remaining, Running, Suspended};

/// The drives of a row differ in code, direction, multiplier and mark.
pub struct Row {
    pub name: &'static str,
    pub drives: Vec<Drive>,
}

/// Cells of every code; s stands for a sign and X for a multiplier.
pub const CODES: [(&str, &str); 22] = [
    ("00", "00,101"),
    ("01", "01,05,20,s5,X,101"),
    ("02", "02,05,20,s,X,101"),
    ("03", "03,05,20,s,05,101"),
    ("05", "05,05,20,s,9,X,101"),
    ("05", "05,05,20,s,0,X,101"),
    ("11", "11,05,s5,X,101"),
    ("12", "12,05,s,X,101"),
    ("21", "21,0224,s5,X,101"),
    ("22", "22,0224,s,X,101"),
    ("31", "31,100,20,s5,X,101"),
    ("32", "32,100,20,s,X,101"),
    ("57", "57,1,s5,101"),
    ("58", "58,O1,1,101"),
    ("60", "60,101"),
    ("61", "61,9,101"),
    ("62", "62,120,101"),
    ("63", "63,I0,1,120,101"),
    ("65", "65,5,101"),
    ("65", "65,0,101"),
    ("69", "69"),
    ("70", "70,1,101"),
];

const ALL_BUT_69: &[&str] = &[
    "00", "01", "02", "03", "05", "11", "12", "21", "22", "31", "32", "57", "58", "60", "61", "62",
    "63", "65", "70",
];

/// What the drives of a row have beside their codes.
#[derive(Clone, Copy)]
struct Has {
    phase: Phase,
    /// Steps along the direction, or milliseconds.
    rest: i32,
    marks: &'static [bool],
    px: bool,
}

const NO_MARK: &[bool] = &[false];
const MARK: &[bool] = &[true];
const EITHER: &[bool] = &[false, true];

pub fn rows() -> Vec<Row> {
    use Phase::*;
    let has = |phase, rest, marks| Has { phase, rest, marks, px: false };
    let px = |phase, marks| Has { phase, rest: 0, marks, px: true };
    vec![
        Row { name: "idle", drives: vec![idle()] },
        row("waiting at any cell but a 69", ALL_BUT_69, has(Waiting, 0, NO_MARK)),
        row("waiting at a 69", &["69"], has(Waiting, 0, NO_MARK)),
        row("delay, 65", &["65"], has(Delay, 5, NO_MARK)),
        row("delay, 65, 1 ms left", &["65"], has(Delay, 1, NO_MARK)),
        row("run, 01 31", &["01", "31"], has(Run, 5, EITHER)),
        row("run, 11 21", &["11", "21"], has(Run, 5, NO_MARK)),
        row("run, 02 32", &["02", "32"], has(Run, 0, EITHER)),
        row("run, 12 22", &["12", "22"], has(Run, 0, NO_MARK)),
        row("run, 03", &["03"], has(Run, 0, EITHER)),
        row("run, 05 before at-speed", &["05"], has(Run, 0, NO_MARK)),
        row("run, 05 after at-speed", &["05"], has(Run, 0, MARK)),
        row("braking, 05", &["05"], has(Braking, 5, MARK)),
        row("slowing, 02 32", &["02", "32"], has(Slowing, 0, EITHER)),
        row("slowing, 03 with PX on", &["03"], px(Slowing, EITHER)),
        row("slowing, 03 with PX off", &["03"], has(Slowing, 0, EITHER)),
        row("emergency slowing, 01 31", &["01", "31"], has(EmergencySlowing, 5, EITHER)),
        row("emergency slowing, 02 32 03", &["02", "32", "03"], has(EmergencySlowing, 0, EITHER)),
        row("emergency slowing, 05 from its run", &["05"], has(EmergencySlowing, 0, EITHER)),
        row("emergency slowing, 05 from braking", &["05"], has(EmergencySlowing, 5, EITHER)),
        row("back, 03", &["03"], px(Back, NO_MARK)),
    ]
}

fn row(name: &'static str, codes: &[&str], has: Has) -> Row {
    let cells = CODES.iter().filter(|(code, _)| codes.contains(code));
    let cells = cells.flat_map(|(_, text)| variants(text));
    let drives = cells.flat_map(|cell| has.marks.iter().map(move |mark| busy(cell, has, *mark)));
    Row { name, drives: drives.collect() }
}

/// The cells that a text stands for: both directions, both multipliers.
pub fn variants(text: &str) -> Vec<Cell> {
    let signed = ["+", "-"].map(|sign| text.replace('s', sign));
    let texts = signed.iter().flat_map(|text| ["x1", "x4"].map(|x| text.replace('X', x)));
    let mut cells: Vec<Cell> = texts.map(|text| parsed(&text)).collect();
    cells.dedup();
    cells
}

pub fn parsed(text: &str) -> Cell {
    let fields: Vec<&[u8]> = text.split(',').map(str::as_bytes).collect();
    Cell::parse(&fields).expect("a cell that is in order")
}

/// A drive with an older error and an older record, of which one sees what becomes.
pub fn idle() -> Drive {
    let mut drive = Drive::fresh(0).expect("01 takes address 0");
    drive.fault = Fault { code: 52, cell: 140 };
    drive.suspended = Suspended { cell: 150, remaining: Remaining::Nothing, loop_count: 7 };
    drive
}

/// A drive at cell 100, which holds the cell given.
fn busy(cell: Cell, has: Has, at_speed: bool) -> Drive {
    let mut drive = idle();
    drive.cells[0] = cell;
    drive.inputs.px = has.px;
    let remaining = match (has.rest, has.phase) {
        (0, _) => Remaining::Nothing,
        (rest, Phase::Delay) => Remaining::Milliseconds(rest as u32),
        (rest, _) if forward(cell.instruction) => Remaining::Steps(rest),
        (rest, _) => Remaining::Steps(-rest),
    };
    drive.running = Running { cell: 100, phase: has.phase, remaining, loop_count: 3, at_speed };
    assert!(drive.sound(), "{:?}", drive.running);
    drive
}

/// The direction of a run: s, or the sign of its steps.
pub fn forward(instruction: Instruction) -> bool {
    use Instruction::*;
    match instruction {
        IndexedRamp { steps, .. }
        | IndexedRampFine { steps, .. }
        | Indexed { steps, .. }
        | IndexedFine { steps, .. } => steps > 0,
        _ => instruction.forward().unwrap_or(true),
    }
}

/// The same drive with one step or one millisecond left.
pub fn with_last_step(drive: &Drive) -> Option<Drive> {
    let Remaining::Steps(steps) = drive.running.remaining else { return None };
    let mut last = *drive;
    last.running.remaining = Remaining::Steps(steps.signum());
    Some(last)
}

/// The code of the present cell and the phase.
pub fn kind(drive: &Drive) -> (String, u8) {
    match drive.idle() {
        true => ("idle".to_string(), 0),
        false => (drive.present().print()[..2].to_string(), drive.running.phase as u8),
    }
}

/// Every code in every phase in which some record of it is sound.
pub fn every_code_and_phase() -> Vec<(String, u8)> {
    use Phase::*;
    let cells = CODES.iter().flat_map(|(_, text)| variants(text));
    let phases = [Waiting, Delay, Run, Braking, Slowing, EmergencySlowing, Back];
    let pairs = cells.flat_map(|cell| phases.map(|phase| (cell, phase)));
    pairs.filter_map(|(cell, phase)| sound_in(cell, phase)).collect()
}

fn sound_in(cell: Cell, phase: Phase) -> Option<(String, u8)> {
    let rests =
        [Remaining::Nothing, Remaining::Milliseconds(5), Remaining::Steps(5), Remaining::Steps(-5)];
    let records = rests.into_iter().flat_map(|rest| [(rest, false), (rest, true)]);
    let mut drives = records.map(|(remaining, at_speed)| {
        let mut drive = idle();
        drive.cells[0] = cell;
        drive.running = Running { cell: 100, phase, remaining, loop_count: 0, at_speed };
        drive
    });
    drives.find(Drive::sound).map(|drive| kind(&drive))
}
