//! Delays and loop counts at the ends of their ranges and of 16 bits; and long delays, carried
//! through by waits, stopped and resumed.

use super::fields::LONGEST_DELAY;
use super::Generator;
use crate::memory::Remaining;

/// The ends of 16 bits, where an image takes a group more, the end of the range, and one beyond.
const DELAYS: [i64; 10] = [
    65_535,
    65_536,
    65_536,
    65_537,
    2_097_151,
    2_097_152,
    LONGEST_DELAY - 1,
    LONGEST_DELAY,
    LONGEST_DELAY,
    LONGEST_DELAY + 1,
];

const LOOP_COUNTS: [i64; 3] = [65_534, 65_535, 65_536];

/// A delay with more left is carried through only seldom: scripts are run by the thousand.
const SOON: u32 = 70_000;

impl Generator {
    /// A 65 or a 61 with a number at an end, or one beyond.
    pub fn count_at_an_end(&mut self) {
        let (code, counts) = self.random.pick(&[("65", &DELAYS[..]), ("61", &LOOP_COUNTS)]);
        let (cell, count) = (self.any_cell(), self.random.pick(counts));
        self.say(&format!("WN,{cell},{code},{count},000"));
    }

    /// A long delay. Mostly it is stopped within, and a 69 resumes what is left.
    pub fn long_delay(&mut self) {
        let (cell, delay) = (self.random.between(100, 229) as u8, self.random.pick(&DELAYS));
        self.clear_stops();
        self.say(&format!("WN,{cell},65,{delay},000"));
        self.say(&format!("PS,{cell}"));
        self.one_millisecond();
        let budget = self.random.pick(&[1, 2, 300]);
        self.wait_with(budget);
        if self.random.once_in(4) {
            return self.carry_through();
        }
        self.stop_string();
        self.look();
        self.say(&format!("WN,{},69", cell + 1));
        self.say(&format!("PS,{}", cell + 1));
        self.one_millisecond();
        if self.random.once_in(4) {
            self.carry_through();
        }
    }

    /// Waits one after the other until the delay ends; of one that lasts long mostly a short wait.
    fn carry_through(&mut self) {
        let Remaining::Milliseconds(left) = self.drive.running.remaining else { return };
        let budget = match left {
            0..=SOON => self.random.pick(&[30_000, 60_000, 65_535, 65_536]),
            _ if self.random.once_in(60) => 1_000_000,
            _ => return self.wait_with(9),
        };
        for _ in 0..=left / budget {
            self.wait_with(budget);
        }
    }
}
