//! A drive put together from the texts of its 165 answers and from nothing else.

use reference::instruction::{Cell, Instruction};
use reference::memory::{Cam, Drive, Fault, Remaining, Resolution, Suspended};

/// The answers in the order of the full reading, each without its address and byte 13. A drive that
/// answers is idle.
pub fn rebuild(answers: &[String]) -> Drive {
    assert_eq!(answers.len(), 165);
    let mut drive = Drive::fresh(0).expect("01 takes address 0");
    for answer in answers {
        let fields: Vec<&str> = answer.split(',').collect();
        match fields[0] {
            "QM" => drive.cells[number(fields[1]) as usize - 100] = cell(&fields[2..]),
            "QS" => preset(&mut drive, fields[1], fields[2]),
            "QA" => drive.position = number(fields[1]) as i32,
            "QO" => output(&mut drive, fields[1], fields[2] == "1"),
            "QI" => input(&mut drive, fields[1], fields[2] == "1"),
            "QC" if fields[1] == "0" => drive.cam = Cam { set: false, position: 0 },
            "QC" => drive.cam = Cam { set: true, position: number(fields[2]) as i32 },
            "QE" => drive.fault = fault(fields[1], fields[2]),
            "QR" => drive.suspended = suspended(&drive, &fields[1..]),
            _ => panic!("no answer of the reading: {answer}"),
        }
    }
    drive
}

fn number(text: &str) -> i64 {
    text.parse().unwrap_or_else(|_| panic!("not a number: {text}"))
}

fn preset(drive: &mut Drive, name: &str, value: &str) {
    let presets = &mut drive.presets;
    match name {
        "AD" => presets.address = number(value) as u8,
        "IN" => presets.current = number(value) as u8,
        "RS" => presets.resolution = resolution(value),
        "ES" => presets.stop_blocks_start = value == "1",
        "CM" => presets.absolute = value == "1",
        _ => panic!("no preset {name}"),
    }
}

fn resolution(name: &str) -> Resolution {
    match name {
        "D0" => Resolution::D0,
        "D1" => Resolution::D1,
        "D2" => Resolution::D2,
        "D3" => Resolution::D3,
        "B0" => Resolution::B0,
        "B1" => Resolution::B1,
        "B2" => Resolution::B2,
        "B3" => Resolution::B3,
        _ => panic!("no resolution {name}"),
    }
}

/// The number in a name such as O3 or F7.
fn place(name: &str) -> usize {
    number(&name[1..]) as usize
}

fn output(drive: &mut Drive, name: &str, on: bool) {
    match name {
        "FC" => drive.outputs.fc = on,
        "CU" => drive.outputs.cu = on,
        _ if name.starts_with('O') => drive.outputs.o[place(name)] = on,
        _ => drive.outputs.f[place(name)] = on,
    }
}

fn input(drive: &mut Drive, name: &str, on: bool) {
    match name {
        "PX" => drive.inputs.px = on,
        "ST" => drive.inputs.st = on,
        "ES" => drive.inputs.es = on,
        "EE" => drive.inputs.ee = on,
        _ if name.starts_with('I') => drive.inputs.i[place(name)] = on,
        _ => drive.inputs.s[place(name)] = on,
    }
}

fn fault(code: &str, cell: &str) -> Fault {
    Fault { code: number(code) as u8, cell: number(cell) as u8 }
}

/// The rest counts milliseconds where the recorded cell holds a 65.
fn suspended(drive: &Drive, fields: &[&str]) -> Suspended {
    let cell = number(fields[0]) as u8;
    if cell == 0 {
        return Suspended { cell, remaining: Remaining::Nothing, loop_count: 0 };
    }
    let delay =
        matches!(drive.cells[usize::from(cell) - 100].instruction, Instruction::TimeDelay { .. });
    let remaining = match number(fields[1]) {
        0 => Remaining::Nothing,
        rest if delay => Remaining::Milliseconds(rest as u32),
        rest => Remaining::Steps(rest as i32),
    };
    Suspended { cell, remaining, loop_count: number(fields[2]) as u16 }
}

/// Code, parameters and next of a QM answer; a 69 has no next.
fn cell(fields: &[&str]) -> Cell {
    if fields == ["69"] {
        return Cell { instruction: Instruction::Recovery, next: 0 };
    }
    let (next, fields) = fields.split_last().expect("a next cell");
    let instruction = match fields[0] {
        "01" | "11" | "21" | "31" => indexed(fields),
        "02" | "12" | "22" | "32" | "03" | "05" => free(fields),
        _ => other(fields),
    };
    Cell { instruction, next: number(next) as u8 }
}

fn indexed(fields: &[&str]) -> Instruction {
    let frequency = number(fields[1]) as u16;
    let narrow = frequency as u8;
    let (x4, steps) = (fields[fields.len() - 1] == "x4", number(fields[fields.len() - 2]) as i32);
    let ramp = number(fields[2]) as u8;
    match fields[0] {
        "01" => Instruction::IndexedRamp { frequency: narrow, ramp, steps, x4 },
        "31" => Instruction::IndexedRampFine { frequency: narrow, ramp, steps, x4 },
        "11" => Instruction::Indexed { frequency: narrow, steps, x4 },
        _ => Instruction::IndexedFine { frequency, steps, x4 },
    }
}

fn free(fields: &[&str]) -> Instruction {
    let frequency = number(fields[1]) as u16;
    let narrow = frequency as u8;
    let x4 = fields[fields.len() - 1] == "x4";
    let forward = fields.contains(&"+");
    let ramp = fields[2].parse().unwrap_or(0);
    match fields[0] {
        "02" => Instruction::FreeRamp { frequency: narrow, ramp, forward, x4 },
        "32" => Instruction::FreeRampFine { frequency: narrow, ramp, forward, x4 },
        "12" => Instruction::Free { frequency: narrow, forward, x4 },
        "22" => Instruction::FreeFine { frequency, forward, x4 },
        "03" => Instruction::ZeroSearch {
            frequency: narrow,
            ramp,
            forward,
            slow: number(fields[4]) as u8,
        },
        _ => {
            let steps = number(fields[4]) as i32;
            Instruction::DelayedStop { frequency: narrow, ramp, forward, steps, x4 }
        }
    }
}

fn other(fields: &[&str]) -> Instruction {
    match *fields {
        ["00"] => Instruction::Null,
        ["57", set, position] => {
            Instruction::CamSetting { set: set == "1", position: number(position) as i32 }
        }
        ["58", name, on] => {
            Instruction::OutputSetting { output: output_place(name), on: on == "1" }
        }
        ["60"] => Instruction::CounterReset,
        ["61", count] => Instruction::OpeningLoop { count: number(count) as u16 },
        ["62", jump] => Instruction::ClosingLoop { jump: number(jump) as u8 },
        ["63", name, on, jump] => Instruction::ConditionalJump {
            input: condition_place(name),
            on: on == "1",
            jump: number(jump) as u8,
        },
        ["65", delay] => Instruction::TimeDelay { milliseconds: number(delay) as u32 },
        ["70", on] => Instruction::CurrentSetting { on: on == "1" },
        _ => panic!("no instruction: {fields:?}"),
    }
}

/// The place in 01's list for 58: O0 to O3, FC, F0 to F7.
fn output_place(name: &str) -> u8 {
    match name {
        "FC" => 4,
        _ if name.starts_with('O') => place(name) as u8,
        _ => 5 + place(name) as u8,
    }
}

/// The place in 01's list for 63: I0 to I2, PX, S0 to S3, F0 to F7.
fn condition_place(name: &str) -> u8 {
    match name {
        "PX" => 3,
        _ if name.starts_with('I') => place(name) as u8,
        _ if name.starts_with('S') => 4 + place(name) as u8,
        _ => 8 + place(name) as u8,
    }
}
