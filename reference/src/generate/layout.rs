//! An image number by number: what each may be. By it scripts get images of any content, whole and
//! damaged, and tests say what is wrong with one. The drive's own writer and reader don't use it.

/// What a number of an image may be.
#[derive(Clone, Copy, PartialEq, Eq, Debug)]
pub enum Field {
    Code,
    /// From the first to the second.
    Within(u64, u64),
    /// A value of the table, in Hz.
    Frequency,
    /// 000 or a cell.
    Next,
}

use Field::{Frequency, Next, Within};

const THOUSANDS: Field = Within(3, 24);
const HUNDREDS: Field = Within(2, 30);
const FINE: Field = Within(30, 240);
const RAMP: Field = Within(10, 42);
const SIGN: Field = Within(0, 1);
const TIMES: Field = Within(0, 1);
const BIT: Field = Within(0, 1);
const CELL: Field = Within(100, 230);
/// +8,388,607 is 16,777,214 and -8,388,607 one less.
const STEPS: Field = Within(0, 16_777_214);
const PLACE: Field = Within(0, u32::MAX as u64);

/// AD, IN, RS, ES, CM.
pub const PRESETS: [Field; 5] = [Within(0, 47), Within(0, 3), Within(0, 7), BIT, BIT];

/// How many cells follow the presets.
pub const CELLS: usize = 128;

/// What follows each code.
pub static CODES: [(u64, &[Field]); 20] = [
    (0, &[Next]),
    (1, &[THOUSANDS, RAMP, STEPS, TIMES, Next]),
    (2, &[THOUSANDS, RAMP, SIGN, TIMES, Next]),
    (3, &[THOUSANDS, RAMP, SIGN, HUNDREDS, Next]),
    (5, &[THOUSANDS, RAMP, SIGN, Within(0, 8_388_607), TIMES, Next]),
    (11, &[HUNDREDS, STEPS, TIMES, Next]),
    (12, &[HUNDREDS, SIGN, TIMES, Next]),
    (21, &[Frequency, STEPS, TIMES, Next]),
    (22, &[Frequency, SIGN, TIMES, Next]),
    (31, &[FINE, RAMP, STEPS, TIMES, Next]),
    (32, &[FINE, RAMP, SIGN, TIMES, Next]),
    (57, &[BIT, PLACE, Next]),
    (58, &[Within(0, 12), BIT, Next]),
    (60, &[Next]),
    (61, &[Within(1, 65_535), Next]),
    (62, &[CELL, Next]),
    (63, &[Within(0, 15), BIT, CELL, Next]),
    (65, &[Within(0, 8_388_607), Next]),
    (69, &[]),
    (70, &[BIT, Next]),
];

/// The code whose second field is 0 where its first is.
pub const CAM: u64 = 57;

/// A number in its shortest form.
pub fn groups(mut number: u64) -> Vec<u8> {
    let mut groups = vec![];
    while number >= 128 {
        groups.push(number as u8 | 128);
        number >>= 7;
    }
    groups.push(number as u8);
    groups
}
