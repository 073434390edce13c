//! Raw writes: a field of the record set to a value that it may or may not have, and the write that
//! takes it back.

use super::Generator;
use crate::memory::Drive;
use crate::raw;

const SIGNED: [&str; 4] = ["pos", "campos", "recrest", "rest"];

/// Values around the ends of each field's range. What is beyond what the record can hold is among
/// them.
static FIELDS: [(&str, &[i64]); 19] = [
    ("ad", &[0, 5, 47, 48, 99, 255, 256]),
    ("in", &[0, 3, 4, 255]),
    ("rs", &[0, 1, 2, 7, 8]),
    ("es", &[0, 1, 2]),
    ("cm", &[0, 1, 2]),
    ("pos", &[0, 1, -1, 2_147_483_647, -2_147_483_648, 2_147_483_648]),
    ("inp", &[0, 8, 256, 1_024, 2_047, 2_048]),
    ("camset", &[0, 1, 2]),
    ("campos", &[0, 1, -1, 2_147_483_647, -2_147_483_649]),
    ("errcode", &[0, 49, 50, 51, 52, 53, 53, 256]),
    ("errcell", &[0, 99, 100, 100, 230, 231]),
    ("reccell", &[0, 99, 100, 101, 230, 231]),
    (
        "recrest",
        &[0, 1, -1, 5, 65_536, 8_388_608, 33_554_428, -33_554_428, 33_554_429, -33_554_429],
    ),
    ("recloop", &[0, 1, 65_535, 65_536]),
    ("cell", &[0, 99, 100, 101, 230, 231]),
    ("phase", &[0, 1, 2, 3, 4, 5, 6, 7]),
    (
        "rest",
        &[0, 1, -1, 3, -3, 65_536, 8_388_608, 33_554_428, 33_554_429, -33_554_429, 2_147_483_648],
    ),
    ("loop", &[0, 1, 65_535, 65_536]),
    ("mark", &[0, 1, 2]),
];

/// Cells as numbers, with code, parameters and next. About half of them are sound.
const CELLS: [&str; 46] = [
    "0 0",
    "0 99",
    "0 231",
    "0 256",
    "1 3 10 8388607 1 230",
    "1 2 10 1 1 0",
    "2 24 43 1 1 0",
    "2 24 42 0 1 0",
    "3 10 20 -1 5 0",
    "3 10 20 1 31 0",
    "4 0",
    "5 10 20 -1 3 4 0",
    "5 10 20 1 -1 1 0",
    "5 10 20 1 8388608 1 0",
    "11 5 -3 4 0",
    "11 5 8388608 1 0",
    "12 5 1 1 0",
    "12 31 1 1 0",
    "21 2181 7 4 0",
    "21 2200 7 4 0",
    "22 4800 -1 1 0",
    "22 0 1 1 0",
    "31 240 42 -2 4 0",
    "31 29 10 1 1 0",
    "32 30 10 -1 1 100",
    "32 30 43 1 1 0",
    "57 1 -55 0",
    "57 0 -55 0",
    "58 12 1 0",
    "58 13 1 0",
    "60 0",
    "60 99",
    "61 3 0",
    "61 0 0",
    "62 100 0",
    "62 0 0",
    "63 15 1 100 0",
    "63 16 1 100 0",
    "65 9 0",
    "65 65536 0",
    "65 8388607 0",
    "65 8388608 0",
    "69 0",
    "69 100",
    "70 1 0",
    "70 2 0",
];

/// Error code and cell, the record's cell and rest or loop count, the cam's two: places in `FIELDS`.
const PAIRS: [(usize, usize); 5] = [(9, 10), (11, 12), (12, 11), (11, 13), (7, 8)];

const NEAR_RESTS: [i64; 4] = [0, 1, -1, 3];
const FAR_RESTS: [i64; 4] = [33_554_428, -33_554_428, 33_554_429, -33_554_429];

/// Cells with the phases that their codes have, and some that they haven't.
static UNDER_WAY: [(&str, &[i64]); 12] = [
    ("1 10 20 5 1 0", &[0, 2, 5]),
    ("2 10 20 1 4 101", &[2, 4, 5]),
    ("3 10 20 -1 5 0", &[2, 4, 5, 6]),
    ("5 10 20 -1 3 4 0", &[2, 3, 3, 5]),
    ("5 10 20 1 0 1 0", &[2, 3, 5, 5]),
    ("11 5 -5 4 0", &[0, 2, 5]),
    ("12 5 1 1 0", &[2, 4]),
    ("22 4800 -1 1 0", &[2, 5]),
    ("31 100 20 5 1 0", &[2, 4, 5]),
    ("32 100 20 -1 1 0", &[2, 4, 5]),
    ("65 9 0", &[0, 1, 1, 2]),
    ("65 8388607 0", &[0, 1, 1, 2]),
];

impl Generator {
    /// One raw write, of a field, an output or a cell; or a few that belong together.
    pub fn raw_write(&mut self) {
        match self.random.below(12) {
            0 => self.raw_output(),
            1 | 2 => self.raw_cell(),
            3 => self.raw_pair(),
            4..=7 if self.drive.idle() => self.raw_program(),
            _ => self.raw_field(),
        }
    }

    /// Two fields that are judged together.
    fn raw_pair(&mut self) {
        let (first, second) = self.random.pick(&PAIRS);
        for place in [first, second] {
            let (name, values) = FIELDS[place];
            let value = self.random.pick(values);
            self.write_raw(&format!("{name} {value}"), "");
        }
    }

    /// A program under way, in any phase and with any rest: sound, or not by one field.
    fn raw_program(&mut self) {
        let (content, phases) = self.random.pick(&UNDER_WAY);
        let phase = if self.random.once_in(8) { 6 } else { self.random.pick(phases) };
        let rests = if self.random.once_in(6) { &FAR_RESTS } else { &NEAR_RESTS };
        let rest = self.random.pick(rests);
        let (cell, mark) = (self.any_cell(), self.random.below(2));
        self.write_raw(&format!("c{cell} {content}"), "");
        self.write_raw(&format!("cell {cell}"), "");
        self.write_raw(&format!("phase {phase}"), "");
        self.write_raw(&format!("rest {rest}"), "rest 0");
        self.write_raw(&format!("mark {mark}"), &format!("mark {}", 1 - mark));
    }

    /// A field of the record, mostly one that stands beside what the drive is doing or has noted.
    fn raw_field(&mut self) {
        let fields = self.fields_in_use();
        let (name, values) = self.random.pick(fields);
        let old = held(&self.drive, name);
        let value = match self.random.below(6) {
            0 => -old,
            1 => old + self.random.pick(&[-1, 1]),
            _ => self.random.pick(values),
        };
        let value = if SIGNED.contains(&name) { value } else { value.abs() };
        self.write_raw(&format!("{name} {value}"), &format!("{name} {old}"));
    }

    fn fields_in_use(&mut self) -> &'static [(&'static str, &'static [i64])] {
        let drive = &self.drive;
        match self.random.below(6) {
            0..=2 if !drive.idle() => &FIELDS[14..],
            3 if drive.suspended.cell != 0 => &FIELDS[11..14],
            4 if drive.fault.code != 0 => &FIELDS[9..11],
            _ => &FIELDS,
        }
    }

    fn raw_output(&mut self) {
        let name = self.random.pick(&["O0", "O3", "FC", "F0", "F7", "CU"]);
        let value = self.random.below(3);
        self.write_raw(&format!("out {name} {value}"), &format!("out {name} 0"));
    }

    /// A cell: one of those that the program or the record stands on, or any.
    fn raw_cell(&mut self) {
        let busy = self.drive.running.cell.max(self.drive.suspended.cell);
        let cell =
            if busy >= 100 && self.random.once_in(2) { busy.min(230) } else { self.any_cell() };
        let content = self.random.pick(&CELLS);
        self.write_raw(&format!("c{cell} {content}"), &format!("c{cell} 0 0"));
    }

    fn write_raw(&mut self, change: &str, back: &str) {
        let words: Vec<&str> = change.split(' ').collect();
        let written = raw::write(&self.drive, &words);
        if self.write(&format!("K {change}")) {
            self.mend = back.to_string();
            if let Ok(Some(drive)) = written {
                self.drive = drive;
            }
        }
    }

    /// The write that takes the last one back; a fresh drive where there is none, or where it was
    /// not enough.
    pub fn mend(&mut self) {
        if self.mend.is_empty() {
            return self.fresh();
        }
        let back = std::mem::take(&mut self.mend);
        self.write_raw(&back, "");
    }
}

/// What a field of the record holds, as a number.
fn held(drive: &Drive, name: &str) -> i64 {
    match name {
        "ad" => drive.presets.address.into(),
        "in" => drive.presets.current.into(),
        "rs" => drive.presets.resolution as i64,
        "es" => drive.presets.stop_blocks_start.into(),
        "cm" => drive.presets.absolute.into(),
        "pos" => drive.position.into(),
        "camset" => drive.cam.set.into(),
        "campos" => drive.cam.position.into(),
        "errcode" => drive.fault.code.into(),
        "errcell" => drive.fault.cell.into(),
        "reccell" => drive.suspended.cell.into(),
        "recrest" => drive.suspended.remaining.number(),
        "recloop" => drive.suspended.loop_count.into(),
        "cell" => drive.running.cell.into(),
        "phase" => drive.running.phase as i64,
        "rest" => drive.running.remaining.number(),
        "loop" => drive.running.loop_count.into(),
        "mark" => drive.running.at_speed.into(),
        _ => 0,
    }
}
