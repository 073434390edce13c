//! Points G1 to G5: records that no event makes. Each case changes one place of a sound record.

use reference::instruction::{Cell, Instruction};
use reference::memory::{Drive, Fault, Phase, Remaining, Running, Suspended};

/// A fresh drive with an instruction in cell 100.
fn holding(instruction: Instruction) -> Drive {
    let mut drive = Drive::fresh(0).unwrap();
    drive.cells[0] = Cell { instruction, next: 0 };
    drive
}

/// The same, with cell 100 present.
fn running(instruction: Instruction, phase: Phase, remaining: Remaining, at_speed: bool) -> Drive {
    let mut drive = holding(instruction);
    drive.running = Running { cell: 100, phase, remaining, loop_count: 0, at_speed };
    drive
}

const INDEXED: Instruction = Instruction::Indexed { frequency: 5, steps: 3, x4: false };
const INDEXED_RAMP: Instruction =
    Instruction::IndexedRamp { frequency: 10, ramp: 20, steps: 3, x4: true };
const FREE: Instruction = Instruction::Free { frequency: 5, forward: true, x4: false };
const FREE_RAMP: Instruction =
    Instruction::FreeRamp { frequency: 10, ramp: 20, forward: true, x4: false };
const SEARCH: Instruction =
    Instruction::ZeroSearch { frequency: 10, ramp: 20, forward: true, slow: 5 };
const DELAYED: Instruction =
    Instruction::DelayedStop { frequency: 10, ramp: 20, forward: false, steps: 3, x4: false };
const DELAY: Instruction = Instruction::TimeDelay { milliseconds: 5 };
const MOST: i32 = 33_554_428;

// G1: "a cell with 21/22 and a frequency not in the table is unsound. Same for 57 with V 0 and a
// number not 0."
#[test]
fn a_cell_in_another_form_than_wn_stores_is_unsound() {
    assert!(holding(Instruction::IndexedFine { frequency: 2181, steps: 0, x4: false }).sound());
    assert!(!holding(Instruction::IndexedFine { frequency: 2200, steps: 0, x4: false }).sound());
    assert!(holding(Instruction::FreeFine { frequency: 4800, forward: true, x4: false }).sound());
    assert!(!holding(Instruction::FreeFine { frequency: 0, forward: true, x4: false }).sound());
    assert!(!holding(Instruction::FreeFine { frequency: 4801, forward: true, x4: false }).sound());
    assert!(holding(Instruction::CamSetting { set: true, position: 5 }).sound());
    assert!(!holding(Instruction::CamSetting { set: false, position: 5 }).sound());
}

// 01: "a drive is sound if all fields lie in these ranges"
#[test]
fn a_cell_with_a_field_out_of_range_is_unsound() {
    let unsound = [
        Instruction::IndexedRamp { frequency: 2, ramp: 20, steps: 0, x4: false },
        Instruction::IndexedRamp { frequency: 25, ramp: 20, steps: 0, x4: false },
        Instruction::FreeRamp { frequency: 3, ramp: 9, forward: true, x4: false },
        Instruction::FreeRampFine { frequency: 30, ramp: 43, forward: true, x4: false },
        Instruction::IndexedRampFine { frequency: 241, ramp: 20, steps: 0, x4: false },
        Instruction::IndexedRampFine { frequency: 29, ramp: 20, steps: 0, x4: false },
        Instruction::Indexed { frequency: 31, steps: 0, x4: false },
        Instruction::Indexed { frequency: 30, steps: 8_388_608, x4: false },
        Instruction::Indexed { frequency: 30, steps: -8_388_608, x4: false },
        Instruction::ZeroSearch { frequency: 10, ramp: 20, forward: true, slow: 1 },
        Instruction::DelayedStop { frequency: 10, ramp: 20, forward: true, steps: -1, x4: false },
        Instruction::DelayedStop {
            frequency: 10,
            ramp: 20,
            forward: true,
            steps: 8_388_608,
            x4: false,
        },
        Instruction::OpeningLoop { count: 0 },
        Instruction::ClosingLoop { jump: 0 },
        Instruction::ClosingLoop { jump: 231 },
        Instruction::ConditionalJump { input: 0, on: true, jump: 99 },
        Instruction::ConditionalJump { input: 16, on: true, jump: 100 },
        Instruction::OutputSetting { output: 13, on: true },
        Instruction::TimeDelay { milliseconds: 8_388_608 },
        Instruction::TimeDelay { milliseconds: u32::MAX },
    ];
    for instruction in unsound {
        assert!(!holding(instruction).sound(), "{instruction:?}");
    }
    for next in [1, 99, 231, 255] {
        let mut drive = holding(Instruction::Null);
        drive.cells[130].next = next;
        assert!(!drive.sound(), "next {next}");
    }
}

#[test]
fn presets_cam_and_error_are_bounded() {
    let changes: [fn(&mut Drive); 9] = [
        |drive| drive.presets.address = 48,
        |drive| drive.presets.current = 4,
        |drive| drive.cam.position = 1,
        |drive| drive.fault = Fault { code: 0, cell: 100 },
        |drive| drive.fault = Fault { code: 50, cell: 0 },
        |drive| drive.fault = Fault { code: 49, cell: 100 },
        |drive| drive.fault = Fault { code: 53, cell: 100 },
        |drive| drive.fault = Fault { code: 52, cell: 231 },
        |drive| drive.fault = Fault { code: 51, cell: 99 },
    ];
    for (place, change) in changes.iter().enumerate() {
        let mut drive = Drive::fresh(0).unwrap();
        change(&mut drive);
        assert!(!drive.sound(), "change {place}");
    }
}

// G2: "taken literally also for a 65's rest (record or delay): 65,536 in a 65's record is sound".
// 6.2: so no bound of a rest moves with what a 65 takes.
#[test]
fn a_rest_is_bounded_alike_for_steps_and_milliseconds() {
    let sound = [
        (INDEXED, Remaining::Steps(MOST)),
        (INDEXED, Remaining::Steps(-MOST)),
        (DELAY, Remaining::Milliseconds(65_536)),
        (DELAY, Remaining::Milliseconds(8_388_607)),
        (DELAY, Remaining::Milliseconds(8_388_608)),
        (DELAY, Remaining::Milliseconds(MOST as u32)),
    ];
    let unsound = [
        (INDEXED, Remaining::Steps(MOST + 1)),
        (INDEXED, Remaining::Steps(-MOST - 1)),
        (DELAY, Remaining::Milliseconds(MOST as u32 + 1)),
    ];
    for (instruction, remaining) in sound {
        assert!(recorded(instruction, remaining).sound(), "{remaining:?}");
        assert!(under_way(instruction, remaining).sound(), "{remaining:?}");
    }
    for (instruction, remaining) in unsound {
        assert!(!recorded(instruction, remaining).sound(), "{remaining:?}");
        assert!(!under_way(instruction, remaining).sound(), "{remaining:?}");
    }
}

fn under_way(instruction: Instruction, remaining: Remaining) -> Drive {
    let phase = if instruction == DELAY { Phase::Delay } else { Phase::Run };
    running(instruction, phase, remaining, false)
}

fn recorded(instruction: Instruction, remaining: Remaining) -> Drive {
    let mut drive = holding(instruction);
    drive.suspended = Suspended { cell: 100, remaining, loop_count: 0 };
    drive
}

// 01: "non-zero in the record only for an indexed run or (positive) a 65"; "an empty record is
// three zeros"
#[test]
fn a_record_has_a_rest_only_for_an_indexed_run_or_a_delay() {
    for instruction in [FREE, FREE_RAMP, SEARCH, DELAYED, Instruction::Null, Instruction::Recovery]
    {
        assert!(recorded(instruction, Remaining::Nothing).sound());
        assert!(!recorded(instruction, Remaining::Steps(1)).sound());
        assert!(!recorded(instruction, Remaining::Milliseconds(1)).sound());
    }
    assert!(!recorded(INDEXED, Remaining::Milliseconds(1)).sound());
    assert!(!recorded(DELAY, Remaining::Steps(1)).sound());
    assert!(!recorded(DELAY, Remaining::Milliseconds(0)).sound());
    for suspended in [(0, 0, 1), (0, 1, 0), (99, 0, 0), (231, 0, 0)] {
        let (cell, steps, loop_count) = suspended;
        let mut drive = holding(INDEXED);
        let remaining = if steps == 0 { Remaining::Nothing } else { Remaining::Steps(steps) };
        drive.suspended = Suspended { cell, remaining, loop_count };
        assert!(!drive.sound(), "{suspended:?}");
    }
}

// 01: "a busy rest is positive in a delay, non-zero in an indexed run (slowing or not), non-zero
// along s in braking, 0 or along s in a 05's emergency slowing, else 0"
#[test]
fn a_busy_rest_fits_its_phase() {
    use Phase::{Back, Braking, Delay, EmergencySlowing, Run, Slowing, Waiting};
    let (none, ahead, behind) = (Remaining::Nothing, Remaining::Steps(3), Remaining::Steps(-3));
    let cases = [
        (DELAY, Delay, false, [false, false, false]),
        (INDEXED, Run, false, [false, true, true]),
        (INDEXED_RAMP, Run, false, [false, true, true]),
        (INDEXED_RAMP, EmergencySlowing, true, [false, true, true]),
        (DELAYED, Run, true, [true, false, false]),
        (DELAYED, Braking, true, [false, false, true]),
        (DELAYED, EmergencySlowing, false, [true, false, true]),
        (FREE, Run, false, [true, false, false]),
        (FREE_RAMP, Slowing, false, [true, false, false]),
        (SEARCH, Back, false, [true, false, false]),
        (INDEXED, Waiting, false, [true, false, false]),
    ];
    for (instruction, phase, at_speed, expected) in cases {
        let seen =
            [none, ahead, behind].map(|rest| running(instruction, phase, rest, at_speed).sound());
        assert_eq!(seen, expected, "{instruction:?} {phase:?}");
    }
    assert!(running(DELAY, Delay, Remaining::Milliseconds(5), false).sound());
    assert!(!running(DELAY, Delay, Remaining::Milliseconds(0), false).sound());
    assert!(!running(INDEXED, Run, Remaining::Milliseconds(5), false).sound());
}

// 01: "the phase is one that the present cell's code has"
#[test]
fn a_phase_belongs_to_the_code() {
    use Phase::{Back, Braking, Delay, EmergencySlowing, Run, Slowing};
    let none = Remaining::Nothing;
    for (instruction, phase) in
        [(FREE, Slowing), (FREE, EmergencySlowing), (FREE_RAMP, Back), (FREE_RAMP, Braking)]
    {
        assert!(!running(instruction, phase, none, false).sound(), "{instruction:?} {phase:?}");
    }
    for phase in [Delay, Run, Braking, Slowing, EmergencySlowing, Back] {
        assert!(!running(Instruction::Null, phase, none, false).sound(), "{phase:?}");
    }
    assert!(!running(INDEXED, EmergencySlowing, Remaining::Steps(1), false).sound());
    assert!(!running(INDEXED_RAMP, Slowing, none, false).sound());
    assert!(!running(DELAYED, Slowing, none, false).sound());
}

// 01: "the mark is 1 in braking, 0 in waiting, delay, back and runs without ramp"
#[test]
fn the_mark_fits_its_phase() {
    use Phase::{Back, Braking, Delay, EmergencySlowing, Run, Slowing, Waiting};
    let none = Remaining::Nothing;
    let cases = [
        (FREE_RAMP, Run, none, [true, true]),
        (FREE_RAMP, Slowing, none, [true, true]),
        (FREE_RAMP, EmergencySlowing, none, [true, true]),
        (FREE_RAMP, Waiting, none, [true, false]),
        (FREE, Run, none, [true, false]),
        (SEARCH, Back, none, [true, false]),
        (DELAY, Delay, Remaining::Milliseconds(1), [true, false]),
        (DELAYED, Braking, Remaining::Steps(-1), [false, true]),
    ];
    for (instruction, phase, remaining, expected) in cases {
        let seen = [false, true].map(|mark| running(instruction, phase, remaining, mark).sound());
        assert_eq!(seen, expected, "{instruction:?} {phase:?}");
    }
}

// G3: "sound though unreachable". No sentence of 01 forbids these.
#[test]
fn some_unreachable_records_are_sound() {
    assert!(running(INDEXED, Phase::Run, Remaining::Steps(-MOST), false).sound());
    let mut x4_without = running(INDEXED_RAMP, Phase::Run, Remaining::Steps(3), false);
    x4_without.presets.resolution = reference::memory::Resolution::D0;
    assert!(x4_without.sound());
    let mut failed = running(FREE, Phase::Run, Remaining::Nothing, false);
    failed.fault = Fault { code: 52, cell: 230 };
    failed.inputs.ee = true;
    assert!(failed.sound());
}

// G4: "idle must have exactly one" phase; 01: "Idle, these five are zero."
#[test]
fn an_idle_drive_has_five_zeros() {
    let changes: [fn(&mut Running); 5] = [
        |running| running.phase = Phase::Run,
        |running| running.phase = Phase::Delay,
        |running| running.remaining = Remaining::Steps(1),
        |running| running.loop_count = 1,
        |running| running.at_speed = true,
    ];
    for (place, change) in changes.iter().enumerate() {
        let mut drive = Drive::fresh(0).unwrap();
        change(&mut drive.running);
        assert!(!drive.sound(), "change {place}");
    }
    for cell in [1, 99, 231, 255] {
        let mut drive = Drive::fresh(0).unwrap();
        drive.running.cell = cell;
        assert!(!drive.sound(), "cell {cell}");
    }
}

// G5: "69's missing DDD is held as 0"
#[test]
fn a_69_with_a_next_cell_is_unsound() {
    let mut drive = holding(Instruction::Recovery);
    assert!(drive.sound());
    drive.cells[0].next = 100;
    assert!(!drive.sound());
}
