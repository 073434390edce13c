//! Everything that is not a string: inputs words, milliseconds, reports of the board, waits, and
//! the plain askings.

use super::Generator;
use crate::memory::{Phase, Remaining};
use crate::wait::End;

const PX: u32 = 1 << 3;
const ST: u32 = 1 << 8;
const ES: u32 = 1 << 9;
const EE: u32 = 1 << 10;

/// A wait that is not over after so many milliseconds is written down with a great budget only
/// seldom: scripts are run by the thousand.
const SOON: u32 = 2_000;

impl Generator {
    pub fn one_millisecond(&mut self) {
        if self.write("M") {
            let _ = self.drive.millisecond();
        }
    }

    /// A few milliseconds, as long as the drive neither moves nor stands idle.
    pub fn milliseconds(&mut self) {
        for _ in 0..1 + self.random.below(5) {
            if self.drive.moving() || self.drive.idle() {
                return;
            }
            self.one_millisecond();
        }
    }

    pub fn wait(&mut self) {
        let budget = match self.random.below(16) {
            0 => 0,
            1 => 1_000_001,
            2 => self.random.pick(&[2_000_000, 4_294_967_295]),
            3 | 4 => 1,
            5 => 1_000_000,
            6 => 70_000,
            7 | 8 => self.random.between(20, 1_000) as u32,
            _ => self.random.between(1, 12) as u32,
        };
        let long = budget > SOON && budget <= 1_000_000;
        let budget =
            if long && !self.ends_soon() && !self.random.once_in(20) { 50 } else { budget };
        self.wait_with(budget);
    }

    pub fn wait_with(&mut self, budget: u32) {
        if self.write(&format!("W {budget}")) {
            let _ = self.drive.wait(budget);
        }
    }

    fn ends_soon(&self) -> bool {
        let mut copy = self.drive;
        !matches!(copy.wait(SOON), Ok((End::Spent, _)))
    }

    fn step(&mut self) {
        if self.write("P") {
            let _ = self.drive.step();
        }
    }

    fn at_speed(&mut self) {
        if self.write("A") {
            let _ = self.drive.at_speed();
        }
    }

    pub fn halted(&mut self) {
        if self.write("H") {
            let _ = self.drive.halted();
        }
    }

    /// What the board would report next: at-speed once in a ramp run, steps, halted when slowing.
    pub fn right_report(&mut self) {
        let running = self.drive.running;
        let has_ramp = self.drive.present().instruction.ramp().is_some();
        match running.phase {
            Phase::Run if has_ramp && !running.at_speed && !self.random.once_in(3) => {
                self.at_speed()
            }
            Phase::Slowing if self.random.once_in(6) => self.inputs(self.word() & !PX),
            Phase::Slowing | Phase::EmergencySlowing if self.random.once_in(2) => self.halted(),
            _ => self.steps_of_the_run(),
        }
    }

    /// Steps to the end of a short run, or a few of a long one.
    pub fn steps_of_the_run(&mut self) {
        let left = match self.drive.running.remaining {
            Remaining::Steps(steps) => steps.unsigned_abs(),
            _ => u32::MAX,
        };
        let few = self.random.between(1, 4) as u32;
        let count = if left <= 12 && self.random.once_in(2) { left } else { few };
        let phase = self.drive.running.phase;
        for _ in 0..count {
            if self.drive.running.phase == phase {
                self.step();
            }
        }
    }

    /// Any of the three reports, wherever the drive stands.
    pub fn any_report(&mut self) {
        match self.random.below(3) {
            0 => self.step(),
            1 => self.at_speed(),
            _ => self.halted(),
        }
    }

    /// The inputs as the drive has them.
    fn word(&self) -> u32 {
        let inputs = &self.drive.inputs;
        let bits = inputs
            .i
            .iter()
            .chain([&inputs.px])
            .chain(&inputs.s)
            .chain([&inputs.st, &inputs.es, &inputs.ee]);
        bits.enumerate().fold(0, |word, (place, on)| word | u32::from(*on) << place)
    }

    /// One to three inputs changed; sometimes all at random, the same word again, or one above
    /// 2,047.
    pub fn any_inputs(&mut self) {
        let word = match self.random.below(16) {
            0 => self.random.pick(&[2_048, 2_049, 4_095, 4_294_967_295]),
            1 => self.random.below(2_048) as u32,
            2 => self.word(),
            _ => (0..1 + self.random.below(3))
                .fold(self.word(), |word, _| word ^ 1 << self.random.below(11)),
        };
        self.inputs(word);
    }

    /// EE, ES and ST taken away, so that a later start is heard.
    pub fn quiet_inputs(&mut self) {
        self.inputs(self.word() & !(EE | ES | ST));
    }

    /// Takes EE and ES away before a start, but not every time.
    pub fn clear_stops(&mut self) {
        let ee = self.drive.inputs.ee && !self.random.once_in(8);
        let es = self.drive.inputs.es && !self.random.once_in(3);
        if ee || es {
            let stops = if es { EE | ES } else { EE };
            self.inputs(self.word() & !stops);
        }
    }

    /// ST going on with the selection of a cell from 100 to 115. An ST that is on already goes off
    /// before, mostly.
    pub fn start_by_inputs(&mut self, cell: u8) {
        if self.drive.inputs.st && !self.random.once_in(8) {
            self.inputs(self.word() & !ST);
        }
        let selection = u32::from(cell - 100) << 4;
        let others = if self.random.once_in(6) { self.random.pick(&[EE, ES, ES, PX]) } else { 0 };
        self.inputs((self.word() ^ others) & !(0xf << 4) | selection | ST);
    }

    /// An attempt to start a drive that is not idle.
    pub fn start_inputs(&mut self) {
        let cell = self.random.between(100, 115) as u8;
        self.start_by_inputs(cell);
    }

    pub fn stop_string(&mut self) {
        let own = format!("{:02}", self.drive.presets.address);
        let address = if self.random.once_in(4) { "99".to_string() } else { own };
        let code = if self.free_run() {
            self.random.pick(&["ES", "ES", "EE"])
        } else {
            self.random.pick(&["ES", "EE"])
        };
        self.send(format!("{address}{code}\r").as_bytes());
    }

    /// True where a free run stop is what ends the run.
    fn free_run(&self) -> bool {
        self.drive.running.phase == Phase::Run && self.drive.running.remaining == Remaining::Nothing
    }

    /// A string whose code is that of a stop, or nearly, and which is not one.
    pub fn near_stop(&mut self) {
        let endings =
            ["EE,", "ES,", "EEX", "ESX", "EE,0", "ee", "es", "Ee", "E", "EE ", "QE", "EEEE"];
        let text = self.random.pick(&endings).to_string();
        let zeros = if self.random.once_in(6) { "0".repeat(70) } else { String::new() };
        self.say(&(text + &zeros));
    }

    /// A word that stops by ES or EE, or changes PX; now and then with an edge of ST, which must
    /// not start anything.
    pub fn stop_inputs(&mut self) {
        let edge = if self.random.once_in(3) { ST } else { 0 };
        let word = self.word() ^ edge;
        let kind = if self.free_run() { self.random.below(15) } else { self.random.below(10) };
        let stop = match kind {
            0..=2 | 10.. => word | ES,
            3 => word | EE,
            4 => word | EE | ES,
            5..=7 => word ^ PX,
            8 => word & !(EE | ES | PX),
            _ => word | ES | PX,
        };
        self.inputs(stop);
    }

    pub fn board_order(&mut self) {
        self.write("B");
    }

    pub fn reading(&mut self) {
        self.write("Q");
    }

    /// A frequency around the ends of the range, around a value of the table, or anywhere.
    pub fn rounding(&mut self) {
        let value = match self.random.below(6) {
            0 => self.random.pick(&[0, 1, 4_799, 4_800, 4_801, 4_294_967_295]),
            1 => self.random.pick(&[224, 318, 319, 320, 2_200]),
            2 | 3 => 96_000 / self.random.between(20, 1_000) + self.random.between(-1, 1),
            _ => self.random.between(1, 4_800),
        };
        self.write(&format!("R {value}"));
    }

    /// A fresh drive in place of the old; one time in three of an address that is refused.
    pub fn fresh(&mut self) {
        let address = match self.random.below(6) {
            0 => self.random.pick(&[48, 99, 256, 4_294_967_295]),
            1 => 48 + self.random.below(1_000),
            2 => 47,
            _ => self.random.below(48),
        };
        self.fresh_at(address);
    }
}
