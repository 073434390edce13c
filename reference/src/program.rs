//! 01, "Carrying out": starting a program, milliseconds, taking each code, errors and the end.

use crate::instruction::{Cell, Instruction, MOST_STEPS};
use crate::memory::{Cam, Drive, Fault, Phase, Remaining, Resolution, Running, Suspended};

impl Drive {
    /// 01: "Millisecond, board order: 2."
    pub fn millisecond(&mut self) -> Result<(), u8> {
        self.refuse_unsound()?;
        self.tick();
        Ok(())
    }

    /// 01: "clears the error and makes BBB .. the present cell"
    pub(crate) fn start(&mut self, cell: u8) {
        self.fault = Fault::NONE;
        self.running = Running { cell, ..Running::IDLE };
    }

    /// A millisecond on a sound drive. 01: "Each millisecond outside a run or delay takes the
    /// present cell"
    pub(crate) fn tick(&mut self) {
        match self.running.phase {
            Phase::Waiting if self.idle() => {}
            Phase::Waiting => self.take(),
            Phase::Delay => self.delay(),
            _ => {}
        }
    }

    /// A millisecond of a delay.
    fn delay(&mut self) {
        match self.running.remaining {
            Remaining::Milliseconds(left) if left > 1 => {
                self.running.remaining = Remaining::Milliseconds(left - 1);
            }
            _ => self.advance(),
        }
    }

    /// Takes the present cell.
    fn take(&mut self) {
        use Instruction::*;
        let Cell { instruction, next } = self.present();
        match instruction {
            Null
            | CamSetting { .. }
            | OutputSetting { .. }
            | CounterReset
            | CurrentSetting { .. }
            | OpeningLoop { .. } => {
                self.act(instruction);
                self.advance_to(next);
            }
            ClosingLoop { jump } => self.close_loop(jump, next),
            // 01: "63: EEE if II equals V, else DDD."
            ConditionalJump { input, on, jump } => {
                self.advance_to(if self.condition(input) == on { jump } else { next })
            }
            // 01: "65: a delay of nnn later milliseconds; 0 passes on."
            TimeDelay { milliseconds: 0 } => self.advance_to(next),
            TimeDelay { milliseconds } => self.begin_delay(milliseconds),
            Recovery => self.recover(),
            IndexedRamp { steps, .. }
            | IndexedRampFine { steps, .. }
            | Indexed { steps, .. }
            | IndexedFine { steps, .. } => self.take_indexed(steps, instruction),
            FreeRamp { .. }
            | FreeRampFine { .. }
            | Free { .. }
            | FreeFine { .. }
            | DelayedStop { .. } => self.take_free(instruction),
            ZeroSearch { .. } => self.take_zero_search(),
        }
    }

    /// 01: "00, 57, 58, 60 (position 0), 70 (CU), 61 (loop count = nnn) act and pass to DDD."
    fn act(&mut self, instruction: Instruction) {
        match instruction {
            Instruction::CamSetting { set, position } => self.cam = Cam { set, position },
            Instruction::OutputSetting { output, on } => self.outputs.set(output.into(), on),
            Instruction::CounterReset => self.position = 0,
            Instruction::CurrentSetting { on } => self.outputs.cu = on,
            Instruction::OpeningLoop { count } => self.running.loop_count = count,
            _ => {}
        }
    }

    /// 01: "62: count 0 is error 52; else one less, then DDD at 0, EEE otherwise."
    fn close_loop(&mut self, jump: u8, next: u8) {
        if self.running.loop_count == 0 {
            return self.fail(52);
        }
        self.running.loop_count -= 1;
        self.advance_to(if self.running.loop_count == 0 { next } else { jump });
    }

    /// The input or flag at a place of `CONDITIONS`.
    fn condition(&self, place: u8) -> bool {
        match usize::from(place) {
            input @ 0..=7 => self.inputs.get(input),
            flag => self.outputs.f[flag - 8],
        }
    }

    /// 01: "Indexed: shift = n×m", "Shift 0 passes on." 02, Slip 4: "In absolute mode n is the target
    /// itself for x1 and x4", "A shift beyond 8,388,607 either way gives error 50 in both."
    fn take_indexed(&mut self, steps: i32, instruction: Instruction) {
        if self.lacks_multiplier(instruction) {
            return self.fail(51);
        }
        let n = i64::from(steps);
        let shift = if self.presets.absolute {
            n - i64::from(self.position)
        } else {
            n * i64::from(instruction.multiplier())
        };
        if self.presets.absolute && shift.abs() > i64::from(MOST_STEPS) {
            return self.fail(50);
        }
        match shift {
            0 => self.advance(),
            _ => self.begin_run(Remaining::Steps(shift as i32)),
        }
    }

    /// 01: "After the x4 check, 02, 32, 12, 22 and 05 are passed over while input ES is on."
    fn take_free(&mut self, instruction: Instruction) {
        if self.lacks_multiplier(instruction) {
            self.fail(51);
        } else if self.inputs.es {
            self.advance();
        } else {
            self.begin_run(Remaining::Nothing);
        }
    }

    /// 01: "fast along s until PX is on, slow down until halted (both skipped if PX is on when
    /// taken)"
    fn take_zero_search(&mut self) {
        if self.inputs.px {
            self.begin_back();
        } else {
            self.begin_run(Remaining::Nothing);
        }
    }

    /// 01: "x4 with RS not D2, D3, B2, B3 is error 51"
    fn lacks_multiplier(&self, instruction: Instruction) -> bool {
        use Resolution::*;
        instruction.x4() && !matches!(self.presets.resolution, D2 | D3 | B2 | B3)
    }

    fn begin_run(&mut self, remaining: Remaining) {
        self.running.phase = Phase::Run;
        self.running.remaining = remaining;
    }

    fn begin_delay(&mut self, milliseconds: u32) {
        self.running.phase = Phase::Delay;
        self.running.remaining = Remaining::Milliseconds(milliseconds);
    }

    /// 01: "then at LL against s until PX is off, then pass on. PX is looked at when a phase
    /// begins"
    pub(crate) fn begin_back(&mut self) {
        self.running.phase = Phase::Back;
        self.running.at_speed = false;
        if !self.inputs.px {
            self.advance();
        }
    }

    /// 01: "69: empty record ends the program; else the loop count is restored, the record emptied,
    /// and its cell becomes the present one and is resumed in the same millisecond, with its rest
    /// as shift or delay (error 51 is judged again, 50 not), or taken anew if rest is 0."
    fn recover(&mut self) {
        let Suspended { cell, remaining, loop_count } = self.suspended;
        if cell == 0 {
            return self.end();
        }
        self.suspended = Suspended::EMPTY;
        self.running.loop_count = loop_count;
        self.running.cell = cell;
        match remaining {
            Remaining::Nothing => self.take(),
            Remaining::Milliseconds(delay) => self.begin_delay(delay),
            Remaining::Steps(_) if self.lacks_multiplier(self.present().instruction) => {
                self.fail(51)
            }
            Remaining::Steps(_) => self.begin_run(remaining),
        }
    }

    /// 01's "pass on": to the present cell's next one.
    pub(crate) fn advance(&mut self) {
        self.advance_to(self.present().next);
    }

    /// 01: "Next 000 ends: idle."; "passing on, entering back or becoming idle clears it"
    fn advance_to(&mut self, cell: u8) {
        if cell == 0 {
            return self.end();
        }
        let loop_count = self.running.loop_count;
        self.running = Running { cell, loop_count, ..Running::IDLE };
    }

    /// Becomes idle.
    pub(crate) fn end(&mut self) {
        self.running = Running::IDLE;
    }

    /// 01: "An error ends the program and notes code and cell."
    fn fail(&mut self, code: u8) {
        self.fault = Fault { code, cell: self.running.cell };
        self.end();
    }
}
