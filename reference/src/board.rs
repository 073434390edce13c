//! 01, "Carrying out": what the pulse board reports, and the order that it is given.

use crate::instruction::Instruction;
use crate::memory::{Cam, Drive, Phase, Remaining};

/// 01's "order to the board". `current` is IN; `remaining` is 0 where no rest is counted.
#[derive(Clone, Copy, PartialEq, Eq, Debug)]
pub enum Order {
    Stand { current: u8, cu: bool, fc: bool },
    Slow { current: u8, cu: bool, fc: bool },
    Run { forward: bool, hertz: u32, ramp: u8, remaining: i32, current: u8, cu: bool, fc: bool },
}

impl Drive {
    /// 01: "Step: 2; 5, no run under way."
    pub fn step(&mut self) -> Result<(), u8> {
        self.refuse_unsound()?;
        self.step_unchecked()
    }

    /// A step on a sound drive.
    pub(crate) fn step_unchecked(&mut self) -> Result<(), u8> {
        if !self.moving() {
            return Err(5);
        }
        let forward = self.forward();
        self.move_position(forward);
        self.count_step(forward);
        Ok(())
    }

    /// 01: "A rest of steps has the sign of its direction"; back goes "against s".
    fn forward(&self) -> bool {
        match (self.present().instruction.forward(), self.running.remaining) {
            (Some(forward), _) => forward != (self.running.phase == Phase::Back),
            (None, Remaining::Steps(steps)) => steps > 0,
            (None, _) => true,
        }
    }

    /// 01: "A step moves the position by one; past +2,147,483,647 comes −2,147,483,648, and back.
    /// If the cam is set and the new position equals its own, O3 is complemented and the cam unset
    /// (position 0)"
    fn move_position(&mut self, forward: bool) {
        self.position = self.position.wrapping_add(if forward { 1 } else { -1 });
        if self.cam.set && self.cam.position == self.position {
            self.outputs.o[3] = !self.outputs.o[3];
            self.cam = Cam::UNSET;
        }
    }

    /// 01: a rest "loses one at each step"; "Indexed rest falls to 0: next cell."
    fn count_step(&mut self, forward: bool) {
        let Remaining::Steps(steps) = self.running.remaining else { return };
        let left = if forward { steps - 1 } else { steps + 1 };
        if left != 0 {
            self.running.remaining = Remaining::Steps(left);
        } else if self.running.phase == Phase::EmergencySlowing {
            self.emergency_arrived();
        } else {
            self.advance();
        }
    }

    /// 01: "6, at-speed outside the run or braking of a ramp run"; "At-speed sets the mark"
    pub fn at_speed(&mut self) -> Result<(), u8> {
        self.refuse_unsound()?;
        self.at_speed_unchecked()
    }

    /// At-speed on a sound drive.
    pub(crate) fn at_speed_unchecked(&mut self) -> Result<(), u8> {
        match self.running.phase {
            Phase::Run | Phase::Braking if self.present().instruction.ramp().is_some() => {
                self.running.at_speed = true;
                Ok(())
            }
            _ => Err(6),
        }
    }

    /// 01: "6, .. halted outside both slowings"; "02, 32 slow until halted, then pass on"; "03: ..
    /// slow down until halted .., then at LL against s"
    pub fn halted(&mut self) -> Result<(), u8> {
        self.refuse_unsound()?;
        self.halted_unchecked()
    }

    /// Halted on a sound drive.
    pub(crate) fn halted_unchecked(&mut self) -> Result<(), u8> {
        match self.running.phase {
            Phase::EmergencySlowing => self.emergency_halted(),
            Phase::Slowing => match self.present().instruction {
                Instruction::ZeroSearch { .. } => self.begin_back(),
                _ => self.advance(),
            },
            _ => return Err(6),
        }
        Ok(())
    }

    /// 01: "the order to the board is: stand outside a run; slow in both slowings; or direction, Hz
    /// × m, ramp code (0 without and in back) and signed rest (0 where none is counted), always
    /// with IN, CU and FC."
    pub fn order(&self) -> Result<Order, u8> {
        self.refuse_unsound()?;
        Ok(self.order_unchecked())
    }

    /// The order of a sound drive.
    pub(crate) fn order_unchecked(&self) -> Order {
        let (current, cu, fc) = (self.presets.current, self.outputs.cu, self.outputs.fc);
        if !self.moving() {
            return Order::Stand { current, cu, fc };
        }
        if matches!(self.running.phase, Phase::Slowing | Phase::EmergencySlowing) {
            return Order::Slow { current, cu, fc };
        }
        let forward = self.forward();
        let (hertz, ramp) = self.speed();
        let remaining = match self.running.remaining {
            Remaining::Steps(steps) => steps,
            _ => 0,
        };
        Order::Run { forward, hertz, ramp, remaining, current, cu, fc }
    }

    /// Hz × m and ramp code of a run under way.
    fn speed(&self) -> (u32, u8) {
        let instruction = self.present().instruction;
        match (instruction, self.running.phase) {
            (Instruction::ZeroSearch { slow, .. }, Phase::Back) => (u32::from(slow) * 100, 0),
            _ => {
                let hertz = instruction.hertz().unwrap_or(0) * u32::from(instruction.multiplier());
                (hertz, instruction.ramp().unwrap_or(0))
            }
        }
    }
}
