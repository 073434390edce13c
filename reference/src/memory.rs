//! 01, "What a drive holds": the record of one drive, the fresh one, and when a record is sound.

use crate::instruction::{is_address, Cell, Instruction};

/// 01's "rest": what is left of a run or of a delay. A rest of 0 is `Nothing`.
#[derive(Clone, Copy, PartialEq, Eq, Debug)]
pub enum Remaining {
    Nothing,
    Steps(i32),
    Milliseconds(u32),
}

/// Preset RS.
#[derive(Clone, Copy, PartialEq, Eq, Debug)]
pub enum Resolution {
    D0,
    D1,
    D2,
    D3,
    B0,
    B1,
    B2,
    B3,
}

/// 01's phases. An idle drive has `Waiting`, the phase's zero.
#[derive(Clone, Copy, PartialEq, Eq, Debug)]
pub enum Phase {
    Waiting,
    Delay,
    Run,
    Braking,
    Slowing,
    EmergencySlowing,
    Back,
}

#[derive(Clone, Copy, PartialEq, Eq, Debug)]
pub struct Presets {
    /// AD
    pub address: u8,
    /// IN
    pub current: u8,
    /// RS
    pub resolution: Resolution,
    /// ES
    pub stop_blocks_start: bool,
    /// CM
    pub absolute: bool,
}

#[derive(Clone, Copy, PartialEq, Eq, Debug)]
pub struct Inputs {
    pub i: [bool; 3],
    pub px: bool,
    pub s: [bool; 4],
    pub st: bool,
    pub es: bool,
    pub ee: bool,
}

#[derive(Clone, Copy, PartialEq, Eq, Debug)]
pub struct Outputs {
    pub o: [bool; 4],
    pub f: [bool; 8],
    pub fc: bool,
    pub cu: bool,
}

#[derive(Clone, Copy, PartialEq, Eq, Debug)]
pub struct Cam {
    pub set: bool,
    pub position: i32,
}

/// 01's "error code and cell"; both 0 where there is none.
#[derive(Clone, Copy, PartialEq, Eq, Debug)]
pub struct Fault {
    pub code: u8,
    pub cell: u8,
}

/// 01's "interrupted record"; cell 0 where it is empty.
#[derive(Clone, Copy, PartialEq, Eq, Debug)]
pub struct Suspended {
    pub cell: u8,
    pub remaining: Remaining,
    pub loop_count: u16,
}

/// What a drive holds while busy. `cell` is 01's "present cell", 0 where the drive is idle.
#[derive(Clone, Copy, PartialEq, Eq, Debug)]
pub struct Running {
    pub cell: u8,
    pub phase: Phase,
    pub remaining: Remaining,
    pub loop_count: u16,
    /// 01's "at-speed mark"
    pub at_speed: bool,
}

#[derive(Clone, Copy, PartialEq, Eq, Debug)]
pub struct Drive {
    pub presets: Presets,
    pub position: i32,
    pub inputs: Inputs,
    pub outputs: Outputs,
    pub cam: Cam,
    pub fault: Fault,
    pub suspended: Suspended,
    pub running: Running,
    /// `cells[0]` is cell 100
    pub cells: [Cell; 131],
}

/// 01: "inputs I0, I1, I2, PX, S0 to S3, ST, ES, EE (bits 0 to 10)"
pub const INPUT_NAMES: [&str; 11] =
    ["I0", "I1", "I2", "PX", "S0", "S1", "S2", "S3", "ST", "ES", "EE"];

/// The outputs in the order of the full reading.
pub const OUTPUT_NAMES: [&str; 14] =
    ["O0", "O1", "O2", "O3", "FC", "F0", "F1", "F2", "F3", "F4", "F5", "F6", "F7", "CU"];

impl Resolution {
    pub const NAMES: [&'static str; 8] = ["D0", "D1", "D2", "D3", "B0", "B1", "B2", "B3"];

    /// The resolution at a place of `NAMES`.
    pub fn at(place: usize) -> Option<Resolution> {
        use Resolution::*;
        [D0, D1, D2, D3, B0, B1, B2, B3].get(place).copied()
    }

    pub fn name(self) -> &'static str {
        Resolution::NAMES[self as usize]
    }
}

impl Inputs {
    pub fn of(word: u32) -> Inputs {
        let on = |bit: u32| word >> bit & 1 == 1;
        Inputs {
            i: [on(0), on(1), on(2)],
            px: on(3),
            s: [on(4), on(5), on(6), on(7)],
            st: on(8),
            es: on(9),
            ee: on(10),
        }
    }

    /// The input at a place of `INPUT_NAMES`.
    pub fn get(&self, place: usize) -> bool {
        match place {
            0..=2 => self.i[place],
            3 => self.px,
            4..=7 => self.s[place - 4],
            8 => self.st,
            9 => self.es,
            _ => self.ee,
        }
    }
}

impl Outputs {
    /// The output at a place of `OUTPUT_NAMES`.
    pub fn get(&self, place: usize) -> bool {
        match place {
            0..=3 => self.o[place],
            4 => self.fc,
            5..=12 => self.f[place - 5],
            _ => self.cu,
        }
    }

    pub fn set(&mut self, place: usize, on: bool) {
        match place {
            0..=3 => self.o[place] = on,
            4 => self.fc = on,
            5..=12 => self.f[place - 5] = on,
            _ => self.cu = on,
        }
    }
}

impl Cam {
    /// 01: "an unset cam has position 0"
    pub const UNSET: Cam = Cam { set: false, position: 0 };
}

impl Fault {
    pub const NONE: Fault = Fault { code: 0, cell: 0 };
}

impl Suspended {
    /// 01: "an empty record is three zeros"
    pub const EMPTY: Suspended =
        Suspended { cell: 0, remaining: Remaining::Nothing, loop_count: 0 };
}

impl Running {
    /// 01: "Idle, these five are zero."
    pub const IDLE: Running = Running {
        cell: 0,
        phase: Phase::Waiting,
        remaining: Remaining::Nothing,
        loop_count: 0,
        at_speed: false,
    };
}

impl Drive {
    pub const FIRST: u8 = 100;
    pub const LAST: u8 = 230;

    /// 01: "A fresh drive takes its address (0 to 47)."; "1, address above 47"
    pub fn fresh(address: u32) -> Result<Drive, u8> {
        if address > 47 {
            return Err(1);
        }
        Ok(Drive {
            presets: Presets {
                address: address as u8,
                current: 1,
                resolution: Resolution::D2,
                stop_blocks_start: false,
                absolute: false,
            },
            position: 0,
            inputs: Inputs::of(0),
            outputs: Outputs { o: [false; 4], f: [false; 8], fc: false, cu: false },
            cam: Cam::UNSET,
            fault: Fault::NONE,
            suspended: Suspended::EMPTY,
            running: Running::IDLE,
            cells: [Cell { instruction: Instruction::Null, next: 0 }; 131],
        })
    }

    /// 01: "a drive is idle while it has no present cell"
    pub fn idle(&self) -> bool {
        self.running.cell == 0
    }

    /// 01: "moving while a run is under way"; "The last five are a run under way."
    pub fn moving(&self) -> bool {
        !matches!(self.running.phase, Phase::Waiting | Phase::Delay)
    }

    /// The cell at an address from 100 to 230.
    pub fn cell(&self, address: u8) -> Cell {
        self.cells[usize::from(address - Drive::FIRST)]
    }

    /// The present cell of a busy drive.
    pub fn present(&self) -> Cell {
        self.cell(self.running.cell)
    }

    /// Refusal 2, which every operation on a drive judges first.
    pub(crate) fn refuse_unsound(&self) -> Result<(), u8> {
        if self.sound() {
            Ok(())
        } else {
            Err(2)
        }
    }

    /// 01: "A drive is sound if all fields lie in these ranges and: .."
    pub fn sound(&self) -> bool {
        self.presets.address <= 47
            && self.presets.current <= 3
            && (self.cam.set || self.cam == Cam::UNSET)
            && self.cells.iter().all(Cell::sound)
            && self.fault_sound()
            && self.suspended_sound()
            && self.running_sound()
    }

    /// 01: "an error is 0 with cell 0, or 50 to 52 with a cell"
    fn fault_sound(&self) -> bool {
        match self.fault.code {
            0 => self.fault.cell == 0,
            50..=52 => is_address(self.fault.cell),
            _ => false,
        }
    }

    /// 01: "a rest is within 33,554,428 either way, non-zero in the record only for an indexed run
    /// or (positive) a 65"
    fn suspended_sound(&self) -> bool {
        if self.suspended.cell == 0 {
            return self.suspended == Suspended::EMPTY;
        }
        if !is_address(self.suspended.cell) {
            return false;
        }
        let instruction = self.cell(self.suspended.cell).instruction;
        match self.suspended.remaining {
            Remaining::Nothing => true,
            Remaining::Steps(_) => instruction.is_indexed() && self.suspended.remaining.steps(),
            Remaining::Milliseconds(_) => {
                matches!(instruction, Instruction::TimeDelay { .. })
                    && self.suspended.remaining.milliseconds()
            }
        }
    }

    fn running_sound(&self) -> bool {
        if self.idle() {
            return self.running == Running::IDLE;
        }
        is_address(self.running.cell)
            && has_phase(self.present().instruction, self.running.phase)
            && has_remaining(self.present().instruction, &self.running)
            && has_at_speed(self.present().instruction, &self.running)
    }
}

/// 01: "the phase is one that the present cell's code has"; "waiting; delay (65); run (for 03 its
/// fast part); braking (05 after its stop); slowing (02, 32, 03); emergency slowing (ramp runs);
/// back (03 at LL)"
fn has_phase(instruction: Instruction, phase: Phase) -> bool {
    use Instruction::*;
    match phase {
        Phase::Waiting => true,
        Phase::Delay => matches!(instruction, TimeDelay { .. }),
        Phase::Run => instruction.is_run(),
        Phase::Braking => matches!(instruction, DelayedStop { .. }),
        Phase::Slowing => {
            matches!(instruction, FreeRamp { .. } | FreeRampFine { .. } | ZeroSearch { .. })
        }
        Phase::EmergencySlowing => instruction.ramp().is_some(),
        Phase::Back => matches!(instruction, ZeroSearch { .. }),
    }
}

/// 01: "a busy rest is positive in a delay, non-zero in an indexed run (slowing or not), non-zero
/// along s in braking, 0 or along s in a 05's emergency slowing, else 0"
fn has_remaining(instruction: Instruction, running: &Running) -> bool {
    let remaining = running.remaining;
    let delayed_stop = matches!(instruction, Instruction::DelayedStop { .. });
    match running.phase {
        Phase::Delay => remaining.milliseconds(),
        Phase::Run | Phase::EmergencySlowing if instruction.is_indexed() => remaining.steps(),
        Phase::Braking => remaining.steps() && remaining.along(instruction.forward()),
        Phase::EmergencySlowing if delayed_stop => {
            remaining == Remaining::Nothing
                || remaining.steps() && remaining.along(instruction.forward())
        }
        _ => remaining == Remaining::Nothing,
    }
}

/// 01: "the mark is 1 in braking, 0 in waiting, delay, back and runs without ramp"
fn has_at_speed(instruction: Instruction, running: &Running) -> bool {
    match running.phase {
        Phase::Braking => running.at_speed,
        Phase::Waiting | Phase::Delay | Phase::Back => !running.at_speed,
        Phase::Run if instruction.ramp().is_none() => !running.at_speed,
        Phase::Run | Phase::Slowing | Phase::EmergencySlowing => true,
    }
}

impl Remaining {
    /// 01: "a rest is within 33,554,428 either way"
    const MOST: u32 = 33_554_428;

    /// The rest as a plain number, as QR prints it.
    pub fn number(self) -> i64 {
        match self {
            Remaining::Nothing => 0,
            Remaining::Steps(steps) => steps.into(),
            Remaining::Milliseconds(delay) => delay.into(),
        }
    }

    /// A number of steps, not 0.
    fn steps(self) -> bool {
        match self {
            Remaining::Steps(steps) => steps != 0 && steps.unsigned_abs() <= Remaining::MOST,
            _ => false,
        }
    }

    /// A number of milliseconds, not 0.
    fn milliseconds(self) -> bool {
        match self {
            Remaining::Milliseconds(delay) => delay != 0 && delay <= Remaining::MOST,
            _ => false,
        }
    }

    fn along(self, forward: Option<bool>) -> bool {
        match self {
            Remaining::Steps(steps) => forward == Some(steps > 0),
            _ => false,
        }
    }
}
