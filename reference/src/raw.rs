//! K lines of a script: one field of the record written raw, also to make unsound records.

use crate::frequency::in_table;
use crate::instruction::{Cell, Instruction, Instruction::*};
use crate::memory::{Drive, Inputs, Phase, Remaining, Resolution, OUTPUT_NAMES};

const UNSIGNED: [&str; 15] = [
    "ad", "in", "rs", "es", "cm", "inp", "camset", "errcode", "errcell", "reccell", "recloop",
    "cell", "phase", "loop", "mark",
];
const SIGNED: [&str; 4] = ["pos", "campos", "recrest", "rest"];

/// A phase is written as its place here, which is also its number as a variant.
const PHASES: [Phase; 7] = {
    use Phase::*;
    [Waiting, Delay, Run, Braking, Slowing, EmergencySlowing, Back]
};

/// The record with both rests as plain numbers, which get their units when it is put together.
struct Raw {
    drive: Drive,
    suspended_remaining: i64,
    remaining: i64,
}

/// Writes the field that the words after the K name. `Ok(None)` where the record can't hold the
/// value, `Err` where the line is malformed.
pub fn write(drive: &Drive, words: &[&str]) -> Result<Option<Drive>, String> {
    let mut raw = Raw {
        drive: *drive,
        suspended_remaining: drive.suspended.remaining.number(),
        remaining: drive.running.remaining.number(),
    };
    let held = match words {
        ["out", name, value] => raw.set_output(output_place(name)?, unsigned(value)?.into()),
        [name, value] if UNSIGNED.contains(name) => raw.set(name, unsigned(value)?.into()),
        [name, value] if SIGNED.contains(name) => raw.set(name, signed(value)?),
        [name, values @ ..] => match cell_index(name) {
            Some(index) => raw.set_cell(index, values)?,
            None => return Err(complaint(name)),
        },
        [] => return Err("K: missing name".to_string()),
    };
    Ok(held.and_then(|()| raw.put_together()))
}

/// The record as the integers that a K writes, in the order in which docs/SCRIPTS.md names them,
/// parted by commas; those that may be below zero with their sign.
pub fn print(drive: &Drive) -> String {
    let Drive { presets, position, inputs, cam, fault, suspended, running, .. } = drive;
    let resolution = Resolution::NAMES.iter().position(|name| *name == presets.resolution.name());
    let word = (0..11).fold(0, |word, bit| word | u32::from(inputs.get(bit)) << bit);
    [
        presets.address.to_string(),
        presets.current.to_string(),
        resolution.unwrap_or_default().to_string(),
        u8::from(presets.stop_blocks_start).to_string(),
        u8::from(presets.absolute).to_string(),
        format!("{position:+}"),
        word.to_string(),
        u8::from(cam.set).to_string(),
        format!("{:+}", cam.position),
        fault.code.to_string(),
        fault.cell.to_string(),
        suspended.cell.to_string(),
        format!("{:+}", suspended.remaining.number()),
        suspended.loop_count.to_string(),
        running.cell.to_string(),
        (running.phase as u8).to_string(),
        format!("{:+}", running.remaining.number()),
        running.loop_count.to_string(),
        u8::from(running.at_speed).to_string(),
    ]
    .join(",")
}

fn complaint(name: &str) -> String {
    if name == "out" || UNSIGNED.contains(&name) || SIGNED.contains(&name) {
        return format!("K {name}: missing or extra word");
    }
    format!("K: unknown name {name:?}")
}

impl Raw {
    fn set(&mut self, name: &str, value: i64) -> Option<()> {
        let drive = &mut self.drive;
        match name {
            "ad" => drive.presets.address = narrow(value)?,
            "in" => drive.presets.current = narrow(value)?,
            "rs" => drive.presets.resolution = Resolution::at(narrow(value)?)?,
            "es" => drive.presets.stop_blocks_start = bit(value)?,
            "cm" => drive.presets.absolute = bit(value)?,
            "pos" => drive.position = narrow(value)?,
            "inp" if value > 2047 => return None,
            "inp" => drive.inputs = Inputs::of(narrow(value)?),
            "camset" => drive.cam.set = bit(value)?,
            "campos" => drive.cam.position = narrow(value)?,
            "errcode" => drive.fault.code = narrow(value)?,
            "errcell" => drive.fault.cell = narrow(value)?,
            "reccell" => drive.suspended.cell = narrow(value)?,
            "recrest" => self.suspended_remaining = value,
            "recloop" => drive.suspended.loop_count = narrow(value)?,
            "cell" => drive.running.cell = narrow(value)?,
            "phase" => drive.running.phase = phase(value)?,
            "rest" => self.remaining = value,
            "loop" => drive.running.loop_count = narrow(value)?,
            "mark" => drive.running.at_speed = bit(value)?,
            _ => return None,
        }
        Some(())
    }

    fn set_output(&mut self, place: usize, value: i64) -> Option<()> {
        self.drive.outputs.set(place, bit(value)?);
        Some(())
    }

    /// Code, parameters in the order of QM, next.
    fn set_cell(&mut self, index: usize, words: &[&str]) -> Result<Option<()>, String> {
        let numbers = words.iter().map(|word| signed(word)).collect::<Result<Vec<i64>, _>>()?;
        let [code, parameters @ .., next] = numbers.as_slice() else {
            return Err("K: a cell has a code and a next".to_string());
        };
        if parameter_count(*code).is_some_and(|count| count != parameters.len()) {
            return Err(format!("K: missing or extra parameter of code {code}"));
        }
        let Some(instruction) = instruction(*code, parameters) else { return Ok(None) };
        let Some(next) = narrow(*next) else { return Ok(None) };
        self.drive.cells[index] = Cell { instruction, next };
        Ok(Some(()))
    }

    /// A rest counts milliseconds where the phase is delay, or in the interrupted record where its
    /// cell holds a 65, and steps elsewhere.
    fn put_together(mut self) -> Option<Drive> {
        let delays = self.drive.running.phase == Phase::Delay;
        self.drive.running.remaining = remaining(self.remaining, delays)?;
        let index = usize::from(self.drive.suspended.cell).checked_sub(100);
        let cell = index.and_then(|index| self.drive.cells.get(index));
        let delays = cell.is_some_and(|cell| matches!(cell.instruction, TimeDelay { .. }));
        self.drive.suspended.remaining = remaining(self.suspended_remaining, delays)?;
        Some(self.drive)
    }
}

fn remaining(number: i64, delays: bool) -> Option<Remaining> {
    match number {
        0 => Some(Remaining::Nothing),
        _ if delays => narrow(number).map(Remaining::Milliseconds),
        _ => narrow(number).map(Remaining::Steps),
    }
}

fn output_place(name: &str) -> Result<usize, String> {
    let place = OUTPUT_NAMES.iter().position(|output| *output == name);
    place.ok_or_else(|| format!("K out: unknown name {name:?}"))
}

/// `c100` to `c230`.
fn cell_index(name: &str) -> Option<usize> {
    let digits = name.strip_prefix('c').filter(|digits| digits.len() == 3)?;
    let cell = u8::try_from(unsigned(digits).ok()?).ok()?;
    let index = usize::from(cell.checked_sub(Drive::FIRST)?);
    (cell <= Drive::LAST).then_some(index)
}

/// Decimal, unsigned, at most 4294967295.
pub fn unsigned(word: &str) -> Result<u32, String> {
    let digits = !word.is_empty() && word.bytes().all(|byte| byte.is_ascii_digit());
    let value = word.parse().ok().filter(|_| digits);
    value.ok_or_else(|| format!("not a number from 0 to 4294967295: {word:?}"))
}

/// The same with a sign before it, which may be left out.
fn signed(word: &str) -> Result<i64, String> {
    match (word.strip_prefix('-'), word.strip_prefix('+')) {
        (Some(digits), _) => unsigned(digits).map(|value| -i64::from(value)),
        (_, Some(digits)) => unsigned(digits).map(i64::from),
        _ => unsigned(word).map(i64::from),
    }
}

fn narrow<T: TryFrom<i64>>(value: i64) -> Option<T> {
    T::try_from(value).ok()
}

fn bit(value: i64) -> Option<bool> {
    match value {
        0 => Some(false),
        1 => Some(true),
        _ => None,
    }
}

fn phase(value: i64) -> Option<Phase> {
    PHASES.get(usize::try_from(value).ok()?).copied()
}

/// s: 1 or -1.
fn sign(value: i64) -> Option<bool> {
    match value {
        1 => Some(true),
        -1 => Some(false),
        _ => None,
    }
}

/// XX: 1 or 4.
fn multiplier(value: i64) -> Option<bool> {
    match value {
        1 => Some(false),
        4 => Some(true),
        _ => None,
    }
}

/// A frequency of 21 or 22 is a value of the table and nothing else.
fn fine(value: i64) -> Option<u16> {
    narrow(value).filter(|&frequency| in_table(frequency))
}

fn parameter_count(code: i64) -> Option<usize> {
    match code {
        0 | 60 | 69 => Some(0),
        61 | 62 | 65 | 70 => Some(1),
        57 | 58 => Some(2),
        11 | 12 | 21 | 22 | 63 => Some(3),
        1 | 2 | 3 | 31 | 32 => Some(4),
        5 => Some(5),
        _ => None,
    }
}

#[rustfmt::skip]
fn instruction(code: i64, parameters: &[i64]) -> Option<Instruction> {
    Some(match (code, parameters) {
        (0, []) => Null,
        (1, &[f, r, n, x]) => IndexedRamp {
            frequency: narrow(f)?, ramp: narrow(r)?, steps: narrow(n)?, x4: multiplier(x)?,
        },
        (2, &[f, r, s, x]) => FreeRamp {
            frequency: narrow(f)?, ramp: narrow(r)?, forward: sign(s)?, x4: multiplier(x)?,
        },
        (3, &[f, r, s, l]) => ZeroSearch {
            frequency: narrow(f)?, ramp: narrow(r)?, forward: sign(s)?, slow: narrow(l)?,
        },
        (5, &[f, r, s, n, x]) => DelayedStop {
            frequency: narrow(f)?, ramp: narrow(r)?, forward: sign(s)?, steps: narrow(n)?,
            x4: multiplier(x)?,
        },
        (11, &[f, n, x]) => Indexed {
            frequency: narrow(f)?, steps: narrow(n)?, x4: multiplier(x)?,
        },
        (12, &[f, s, x]) => Free { frequency: narrow(f)?, forward: sign(s)?, x4: multiplier(x)? },
        (21, &[f, n, x]) => IndexedFine {
            frequency: fine(f)?, steps: narrow(n)?, x4: multiplier(x)?,
        },
        (22, &[f, s, x]) => FreeFine { frequency: fine(f)?, forward: sign(s)?, x4: multiplier(x)? },
        (31, &[f, r, n, x]) => IndexedRampFine {
            frequency: narrow(f)?, ramp: narrow(r)?, steps: narrow(n)?, x4: multiplier(x)?,
        },
        (32, &[f, r, s, x]) => FreeRampFine {
            frequency: narrow(f)?, ramp: narrow(r)?, forward: sign(s)?, x4: multiplier(x)?,
        },
        (57, &[v, n]) => CamSetting { set: bit(v)?, position: narrow(n)? },
        (58, &[o, v]) => OutputSetting { output: narrow(o)?, on: bit(v)? },
        (60, []) => CounterReset,
        (61, &[n]) => OpeningLoop { count: narrow(n)? },
        (62, &[e]) => ClosingLoop { jump: narrow(e)? },
        (63, &[i, v, e]) => ConditionalJump {
            input: narrow(i)?, on: bit(v)?, jump: narrow(e)?,
        },
        (65, &[n]) => TimeDelay { milliseconds: narrow(n)? },
        (69, []) => Recovery,
        (70, &[s]) => CurrentSetting { on: bit(s)? },
        _ => return None,
    })
}
