//! Indexed runs at the limits of both modes.

use super::fields::MOST_STEPS;
use super::Generator;

/// The codes of the indexed runs, with fields before n.
const INDEXED: [&str; 4] = ["11,05", "01,10,20", "21,2200", "31,100,30"];

impl Generator {
    /// An absolute run whose shift is the greatest there is, or one more, either way.
    pub fn absolute_limit(&mut self) {
        let times = self.random.pick(&[1, 4]);
        let steps = self.random.between(-MOST_STEPS, MOST_STEPS);
        let shift = self.random.pick(&[-1, 1]) * (MOST_STEPS + self.random.between(-1, 1));
        let cell = self.any_cell();
        let code = self.random.pick(&INDEXED);
        self.say("WS,CM,1");
        self.say(&format!("SA,{}", steps - shift));
        self.say(&format!("WN,{cell},{code},{steps:+},x{times},000"));
        self.say(&format!("PS,{cell}"));
        self.one_millisecond();
    }

    /// A relative x4 run longer than any absolute one, stopped after a few steps. Mostly the mode is
    /// changed then, and a 69 resumes what is left.
    pub fn long_rest(&mut self) {
        let cell = self.random.between(100, 229) as u8;
        let longer = self.random.between(MOST_STEPS / 4 + 8, MOST_STEPS);
        let steps = self.random.pick(&[-1, 1]) * self.random.pick(&[longer, MOST_STEPS]);
        let code = self.random.pick(&INDEXED);
        self.clear_stops();
        self.say("WS,CM,0");
        self.say(&format!("WN,{cell},{code},{steps:+},x4,000"));
        self.say(&format!("WN,{},69", cell + 1));
        self.say(&format!("PS,{cell}"));
        self.one_millisecond();
        self.steps_of_the_run();
        self.say("EE");
        self.halted();
        if !self.random.once_in(4) {
            self.say("WS,CM,1");
        }
        self.say(&format!("PS,{}", cell + 1));
        self.one_millisecond();
    }
}
