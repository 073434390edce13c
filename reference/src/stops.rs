//! 01, "Carrying out": the inputs word, the free run stop and the emergency stop.

use crate::instruction::Instruction::*;
use crate::memory::{Drive, Inputs, Phase, Remaining, Suspended};

impl Drive {
    /// 01: "Inputs: 2; 4, word above 2,047."; "ST is judged on the drive as it stood before the
    /// word, with the word's other inputs; then EE, ES and PX, each by being on or off in that
    /// word."
    pub fn inputs(&mut self, word: u32) -> Result<(), u8> {
        self.refuse_unsound()?;
        self.inputs_unchecked(word)
    }

    /// An inputs word on a sound drive.
    pub(crate) fn inputs_unchecked(&mut self, word: u32) -> Result<(), u8> {
        if word > 2047 {
            return Err(4);
        }
        let now = Inputs::of(word);
        let starts = self.starts(&now);
        self.inputs = now;
        if starts {
            self.start(selected(&now));
        }
        if now.ee {
            self.emergency_stop();
        }
        if now.es {
            self.free_run_stop();
        }
        self.look_at_proximity();
        Ok(())
    }

    /// 01: "ST going on with EE off (and ES off where preset ES is 1), on an idle drive"
    fn starts(&self, now: &Inputs) -> bool {
        let blocked = now.ee || now.es && self.presets.stop_blocks_start;
        self.idle() && now.st && !self.inputs.st && !blocked
    }

    /// 01: "03: fast along s until PX is on, slow down until halted .. then at LL against s until
    /// PX is off, then pass on."
    fn look_at_proximity(&mut self) {
        match self.running.phase {
            Phase::Run if self.inputs.px => {
                if let ZeroSearch { .. } = self.present().instruction {
                    self.running.phase = Phase::Slowing;
                }
            }
            Phase::Back if !self.inputs.px => self.advance(),
            _ => {}
        }
    }

    /// 01: "Free run stop (string ES, or a word with ES on): 12, 22 pass on; 02, 32 slow until
    /// halted, then pass on; 05, only after at-speed, goes on nnn×m steps along s, or 1 if nnn is
    /// 0, then passes on; a second one is ignored."
    pub(crate) fn free_run_stop(&mut self) {
        if self.running.phase != Phase::Run {
            return;
        }
        let instruction = self.present().instruction;
        match instruction {
            Free { .. } | FreeFine { .. } => self.advance(),
            FreeRamp { .. } | FreeRampFine { .. } => self.running.phase = Phase::Slowing,
            DelayedStop { forward, steps, .. } if self.running.at_speed => {
                let distance =
                    if steps == 0 { 1 } else { steps * i32::from(instruction.multiplier()) };
                self.running.phase = Phase::Braking;
                self.running.remaining =
                    Remaining::Steps(if forward { distance } else { -distance });
            }
            _ => {}
        }
    }

    /// 01: "a busy program ends. Ramp runs (01, 31, 02, 32, 03 fast, 05) and any slowing first slow
    /// until halted"; "While slowing for it, further EE, ES and PX do nothing."
    pub(crate) fn emergency_stop(&mut self) {
        if self.idle() {
            return;
        }
        let instruction = self.present().instruction;
        match self.running.phase {
            // 01: "waiting at a 69, it is untouched"
            Phase::Waiting if instruction == Recovery => self.end(),
            Phase::Waiting | Phase::Delay | Phase::Back => self.suspend(),
            Phase::Run if instruction.ramp().is_none() => self.suspend(),
            Phase::Run | Phase::Braking | Phase::Slowing => {
                self.running.phase = Phase::EmergencySlowing;
            }
            Phase::EmergencySlowing => {}
        }
    }

    /// Ends the program by an emergency stop. 01: "the record is cell, rest (0 for 02, 12, 22, 32,
    /// 03 and cells not yet taken), loop count"
    fn suspend(&mut self) {
        self.suspended = Suspended {
            cell: self.running.cell,
            remaining: self.running.remaining,
            loop_count: self.running.loop_count,
        };
        self.end();
    }

    /// The end of an emergency slowing. 01: "after a 05 under way it is empty"
    pub(crate) fn emergency_halted(&mut self) {
        if let DelayedStop { .. } = self.present().instruction {
            self.emergency_arrived();
        } else {
            self.suspend();
        }
    }

    /// 01: "if a rest reaches 0 meanwhile, the drive is idle with that step and the record empty"
    pub(crate) fn emergency_arrived(&mut self) {
        self.suspended = Suspended::EMPTY;
        self.end();
    }
}

/// 01: "100 + S0 + 2×S1 + 4×S2 + 8×S3"
fn selected(inputs: &Inputs) -> u8 {
    let [s0, s1, s2, s3] = inputs.s.map(u8::from);
    100 + s0 + 2 * s1 + 4 * s2 + 8 * s3
}
