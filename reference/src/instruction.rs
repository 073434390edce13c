//! 01, "Instructions": the 20 codes, when a cell is sound, and what a run needs of it.

use crate::fields::Range;
use crate::frequency::in_table;
use crate::memory::{Drive, OUTPUT_NAMES};

/// One cell of program memory. `next` 0 is 000; a 69 has next 0.
#[derive(Clone, Copy, PartialEq, Eq, Debug)]
pub struct Cell {
    pub instruction: Instruction,
    pub next: u8,
}

/// One variant to a code, in the order of the codes, with the names of the manual.
#[derive(Clone, Copy, PartialEq, Eq, Debug)]
pub enum Instruction {
    /// 00
    Null,
    /// 01, frequency in thousand Hz
    IndexedRamp { frequency: u8, ramp: u8, steps: i32, x4: bool },
    /// 02, frequency in thousand Hz
    FreeRamp { frequency: u8, ramp: u8, forward: bool, x4: bool },
    /// 03, frequency in thousand Hz, `slow` (LL) in hundred Hz
    ZeroSearch { frequency: u8, ramp: u8, forward: bool, slow: u8 },
    /// 05, frequency in thousand Hz
    DelayedStop { frequency: u8, ramp: u8, forward: bool, steps: i32, x4: bool },
    /// 11, frequency in hundred Hz
    Indexed { frequency: u8, steps: i32, x4: bool },
    /// 12, frequency in hundred Hz
    Free { frequency: u8, forward: bool, x4: bool },
    /// 21, frequency in Hz, a value of the table
    IndexedFine { frequency: u16, steps: i32, x4: bool },
    /// 22, frequency in Hz, a value of the table
    FreeFine { frequency: u16, forward: bool, x4: bool },
    /// 31, frequency in hundred Hz
    IndexedRampFine { frequency: u8, ramp: u8, steps: i32, x4: bool },
    /// 32, frequency in hundred Hz
    FreeRampFine { frequency: u8, ramp: u8, forward: bool, x4: bool },
    /// 57
    CamSetting { set: bool, position: i32 },
    /// 58, `output` is a place in `SETTABLE`
    OutputSetting { output: u8, on: bool },
    /// 60
    CounterReset,
    /// 61
    OpeningLoop { count: u16 },
    /// 62
    ClosingLoop { jump: u8 },
    /// 63, `input` is a place in `CONDITIONS`
    ConditionalJump { input: u8, on: bool, jump: u8 },
    /// 65
    TimeDelay { milliseconds: u32 },
    /// 69
    Recovery,
    /// 70
    CurrentSetting { on: bool },
}

use Instruction::*;

/// 01: "58 `OO,V` (O0 to O3, FC, F0 to F7)": every output but CU.
pub const SETTABLE: &[&str] = OUTPUT_NAMES.split_at(13).0;

/// 01: "63 `II,V,EEE` (I0 to I2, PX, S0 to S3, F0 to F7)"
pub const CONDITIONS: [&str; 16] = [
    "I0", "I1", "I2", "PX", "S0", "S1", "S2", "S3", "F0", "F1", "F2", "F3", "F4", "F5", "F6", "F7",
];

/// 01: "n is ±nnn within 8,388,607 each way"
pub const MOST_STEPS: i32 = 8_388_607;

/// 02, Slip 6: "Code 65 takes 0 to 8,388,607 milliseconds"
pub const LONGEST_DELAY: u32 = 8_388_607;

/// 01: "BBB is 100 to 230, DDD 000 (end) or 100 to 230."
pub const ADDRESS: Range = Range::new(Drive::FIRST as i64, Drive::LAST as i64);
pub const NEXT: Range = Range { or_zero: true, ..ADDRESS };

/// 01: "FF in the ramp codes is 03 to 24 thousand Hz, in 11, 12 and LL 02 to 30 hundred Hz; FFF 030
/// to 240 hundred Hz; RR 10 to 42"; "FFFF 0001 to 4800"
pub const THOUSANDS: Range = Range::new(3, 24);
pub const HUNDREDS: Range = Range::new(2, 30);
pub const FINE: Range = Range::new(30, 240);
pub const RAMP: Range = Range::new(10, 42);
pub const FREQUENCY: Range = Range::new(1, 4800);

pub const STEPS: Range = Range::new(-(MOST_STEPS as i64), MOST_STEPS as i64);
/// 01: "05 `FF,RR,s,nnn,XX` (0 to 8,388,607)"
pub const STEPS_AFTER: Range = Range::new(0, MOST_STEPS as i64);
/// 01: "61 nnn (1 to 65,535)"
pub const LOOP_COUNT: Range = Range::new(1, 65_535);
pub const DELAY: Range = Range::new(0, LONGEST_DELAY as i64);

impl Cell {
    /// 01: "DDD 000 (end) or 100 to 230"
    pub fn sound(&self) -> bool {
        let next = match self.instruction {
            Recovery => self.next == 0,
            _ => NEXT.has(self.next),
        };
        next && self.instruction.sound()
    }
}

/// 01: "BBB is 100 to 230"
pub fn is_address(address: u8) -> bool {
    ADDRESS.has(address)
}

impl Instruction {
    /// All fields lie in their ranges.
    fn sound(self) -> bool {
        match self {
            Null | CounterReset | Recovery | CurrentSetting { .. } => true,
            IndexedRamp { frequency, ramp, steps, .. } => {
                THOUSANDS.has(frequency) && RAMP.has(ramp) && STEPS.has(steps)
            }
            FreeRamp { frequency, ramp, .. } => THOUSANDS.has(frequency) && RAMP.has(ramp),
            ZeroSearch { frequency, ramp, slow, .. } => {
                THOUSANDS.has(frequency) && RAMP.has(ramp) && HUNDREDS.has(slow)
            }
            DelayedStop { frequency, ramp, steps, .. } => {
                THOUSANDS.has(frequency) && RAMP.has(ramp) && STEPS_AFTER.has(steps)
            }
            Indexed { frequency, steps, .. } => HUNDREDS.has(frequency) && STEPS.has(steps),
            Free { frequency, .. } => HUNDREDS.has(frequency),
            IndexedFine { frequency, steps, .. } => in_table(frequency) && STEPS.has(steps),
            FreeFine { frequency, .. } => in_table(frequency),
            IndexedRampFine { frequency, ramp, steps, .. } => {
                FINE.has(frequency) && RAMP.has(ramp) && STEPS.has(steps)
            }
            FreeRampFine { frequency, ramp, .. } => FINE.has(frequency) && RAMP.has(ramp),
            CamSetting { set, position } => set || position == 0,
            OutputSetting { output, .. } => usize::from(output) < SETTABLE.len(),
            OpeningLoop { count } => LOOP_COUNT.has(count),
            ClosingLoop { jump } => is_address(jump),
            ConditionalJump { input, jump, .. } => {
                usize::from(input) < CONDITIONS.len() && is_address(jump)
            }
            TimeDelay { milliseconds } => DELAY.has(milliseconds),
        }
    }

    /// Hz before the multiplier, of a run; a 03's fast part.
    pub fn hertz(self) -> Option<u32> {
        match self {
            IndexedRamp { frequency, .. }
            | FreeRamp { frequency, .. }
            | ZeroSearch { frequency, .. }
            | DelayedStop { frequency, .. } => Some(u32::from(frequency) * 1000),
            Indexed { frequency, .. }
            | Free { frequency, .. }
            | IndexedRampFine { frequency, .. }
            | FreeRampFine { frequency, .. } => Some(u32::from(frequency) * 100),
            IndexedFine { frequency, .. } | FreeFine { frequency, .. } => Some(frequency.into()),
            _ => None,
        }
    }

    /// The ramp code. 01: "Ramp runs (01, 31, 02, 32, 03 fast, 05)"
    pub fn ramp(self) -> Option<u8> {
        match self {
            IndexedRamp { ramp, .. }
            | IndexedRampFine { ramp, .. }
            | FreeRamp { ramp, .. }
            | FreeRampFine { ramp, .. }
            | ZeroSearch { ramp, .. }
            | DelayedStop { ramp, .. } => Some(ramp),
            _ => None,
        }
    }

    /// s, true for +, of the runs that have one.
    pub fn forward(self) -> Option<bool> {
        match self {
            FreeRamp { forward, .. }
            | FreeRampFine { forward, .. }
            | Free { forward, .. }
            | FreeFine { forward, .. }
            | ZeroSearch { forward, .. }
            | DelayedStop { forward, .. } => Some(forward),
            _ => None,
        }
    }

    pub fn x4(self) -> bool {
        match self {
            IndexedRamp { x4, .. }
            | IndexedRampFine { x4, .. }
            | FreeRamp { x4, .. }
            | FreeRampFine { x4, .. }
            | Indexed { x4, .. }
            | IndexedFine { x4, .. }
            | Free { x4, .. }
            | FreeFine { x4, .. }
            | DelayedStop { x4, .. } => x4,
            _ => false,
        }
    }

    /// 01: "m is 4 for x4, else 1"
    pub fn multiplier(self) -> u8 {
        if self.x4() {
            4
        } else {
            1
        }
    }

    pub fn is_run(self) -> bool {
        self.hertz().is_some()
    }

    /// Codes 01, 31, 11, 21.
    pub fn is_indexed(self) -> bool {
        self.is_run() && self.forward().is_none()
    }
}
