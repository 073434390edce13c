//! Totals asked for: from the cells of programs, and from starts that are none. And programs made
//! for it: short and long, ending and going round, and with another code on the way.

use super::images::image_of;
use super::walks::{put_other_code, walk, Content, Ending, Walk};
use super::Generator;
use crate::memory::{Drive, Resolution};

/// Starts outside 100 to 230. Some of them are cells in fewer bits.
const OUTSIDE: [u32; 12] = [0, 1, 99, 99, 231, 231, 255, 256, 300, 356, 65_636, 4_294_967_295];

const CONTENTS: [(usize, Content); 6] = [
    (6, Content::Mixed { steps: 6, milliseconds: 8 }),
    (4, Content::Mixed { steps: 8_388_607, milliseconds: 8_388_607 }),
    (1, Content::Mixed { steps: 0, milliseconds: 0 }),
    (1, Content::Farthest { forward: true }),
    (1, Content::Farthest { forward: false }),
    (1, Content::Longest),
];

const ENDINGS: [(usize, Ending); 4] =
    [(6, Ending::End), (1, Ending::First), (2, Ending::Back), (1, Ending::Itself)];

impl Generator {
    /// Totals from the present cell or one that holds something; sometimes from any, or from a start
    /// that is none.
    pub fn totals(&mut self) {
        let start = match self.random.below(10) {
            0 | 1 => self.random.pick(&OUTSIDE),
            2 => self.random.pick(&[100, 230]),
            3 => self.any_cell().into(),
            4..=6 if !self.drive.idle() => self.drive.running.cell.into(),
            _ => self.used_cell().into(),
        };
        self.totals_from(start);
    }

    fn totals_from(&mut self, start: u32) {
        self.write(&format!("T {start}"));
    }

    /// A walk and its totals, again from its other cells or after a change of one; then it is mostly
    /// started.
    pub fn walk(&mut self) {
        let long = self.random.once_in(3);
        let mut walk = self.any_walk(long);
        if self.random.once_in(4) {
            let place = self.random.below(walk.len());
            put_other_code(&mut self.random, &mut walk, place);
        }
        if long {
            self.load_walk(&walk);
        } else {
            self.write_walk(&walk);
        }
        self.totals_from(walk[0].0.into());
        for _ in 0..self.random.below(3) {
            self.look_again(&mut walk);
        }
        if !self.random.once_in(3) {
            self.start(walk[0].0);
        }
    }

    fn any_walk(&mut self, long: bool) -> Walk {
        let length = match self.random.below(4) {
            0 if long => 131,
            1 if long => self.random.between(126, 131) as usize,
            _ if long => self.random.between(8, 131) as usize,
            _ => self.random.between(1, 6) as usize,
        };
        let (content, ending) = (self.random.weighted(&CONTENTS), self.random.weighted(&ENDINGS));
        walk(&mut self.random, length, content, ending)
    }

    /// A walk by strings, now and then under another RS or in absolute mode.
    fn write_walk(&mut self, walk: &Walk) {
        if self.random.once_in(3) {
            let text = self.random.pick(&["RS,D0", "RS,D3", "RS,B1", "RS,B2", "CM,1", "CM,0"]);
            self.say(&format!("WS,{text}"));
        }
        for (address, cell) in walk {
            self.say(&format!("WN,{address},{}", cell.print()));
        }
    }

    /// A walk as an image, under any RS and in either mode. What an image doesn't keep follows by
    /// strings.
    fn load_walk(&mut self, walk: &Walk) {
        let address = self.random.below(48) as u32;
        let mut made = Drive::fresh(address).expect("01 takes addresses up to 47");
        made.presets.resolution = Resolution::at(self.random.below(8)).expect("a place below 8");
        made.presets.absolute = self.random.once_in(4);
        for (address, cell) in walk {
            made.cells[usize::from(address - 100)] = *cell;
        }
        self.load_bytes(&image_of(&made));
        for (address, cell) in walk.iter().filter(|(address, _)| *address > 227) {
            self.say(&format!("WN,{address},{}", cell.print()));
        }
    }

    /// Totals from any cell of a walk, one time in two after a cell got another code or next.
    fn look_again(&mut self, walk: &mut Walk) {
        let place = self.random.below(walk.len());
        match self.random.below(4) {
            0 => put_other_code(&mut self.random, walk, place),
            1 => walk[place].1.next = self.random.pick(walk).0,
            _ => return self.totals_from(walk[place].0.into()),
        }
        let (address, cell) = walk[place];
        self.say(&format!("WN,{address},{}", cell.print()));
        self.totals_from(walk[0].0.into());
    }
}
