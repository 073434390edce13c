//! Programs: cells that link to each other, the strings that write them, and the ways to start
//! them.

use super::fields::{CONDITIONS, LONGEST_DELAY, MOST_STEPS, OUTPUTS};
use super::Generator;

/// The codes of a random program. Runs come often, since most of the rules are about them.
const CODES: [(usize, &str); 20] = [
    (2, "00"),
    (6, "01"),
    (6, "02"),
    (9, "03"),
    (9, "05"),
    (5, "11"),
    (5, "12"),
    (4, "21"),
    (4, "22"),
    (5, "31"),
    (5, "32"),
    (3, "57"),
    (3, "58"),
    (2, "60"),
    (3, "61"),
    (3, "62"),
    (5, "63"),
    (8, "65"),
    (3, "69"),
    (2, "70"),
];

impl Generator {
    pub fn any_code(&mut self) -> &'static str {
        self.random.weighted(&CODES)
    }

    /// Writes a few cells that link to each other, and starts the first.
    pub fn program(&mut self) {
        let cells = self.program_cells();
        for (place, cell) in cells.iter().enumerate() {
            let code = self.any_code();
            let next = self.link(&cells, place);
            self.write_cell(*cell, code, next, &cells);
        }
        self.start(cells[0]);
    }

    /// An opening loop, one to three cells, and the closing loop that goes back to the first of
    /// them.
    pub fn looped_program(&mut self) {
        let body = self.random.between(1, 3) as u8;
        let first = self.random.between(100, 110) as u8;
        self.write_cell(first, "61", first + 1, &[]);
        for cell in first + 1..=first + body {
            let code = self.random.pick(&["58", "65", "63", "11", "70", "60", "01"]);
            self.write_cell(cell, code, cell + 1, &[cell + 1, first]);
        }
        let after = self.random.pick(&[0, 0, 0, first, 230]);
        self.write_cell(first + body + 1, "62", after, &[first + 1]);
        self.start(first);
    }

    /// A jump on a flag or an input that is mostly known to be on or off, to cells that tell which
    /// way it went.
    pub fn jump_program(&mut self) {
        let name = self.random.pick(&CONDITIONS);
        if name.starts_with('F') {
            let bit = self.random.below(2);
            self.say(&format!("SO,{name},{bit}"));
        } else {
            self.any_inputs();
        }
        let (first, bit) = (self.random.between(100, 110) as u8, self.random.below(2));
        self.say(&format!("WN,{first},63,{name},{bit},{},{}", first + 1, first + 2));
        self.write_cell(first + 1, "58", 0, &[]);
        self.write_cell(first + 2, "65", 0, &[]);
        self.start(first);
    }

    /// One to seven different cells: in a row or strewn, half of them where the inputs can start
    /// them.
    fn program_cells(&mut self) -> Vec<u8> {
        let count = 1 + self.random.below(7).min(self.random.below(7));
        let first = if self.random.once_in(2) {
            self.random.between(100, 115)
        } else {
            self.random.between(100, 224)
        };
        if self.random.once_in(4) {
            return (0..count)
                .map(|place| 100 + ((first as usize - 100 + 19 * place) % 131) as u8)
                .collect();
        }
        (0..count).map(|place| first as u8 + place as u8).collect()
    }

    /// Mostly the following cell, or 000 at the last; sometimes back, to an early end, or anywhere.
    fn link(&mut self, cells: &[u8], place: usize) -> u8 {
        match self.random.below(14) {
            0 => 0,
            1 => self.random.pick(cells),
            2 => self.any_cell(),
            _ => cells.get(place + 1).copied().unwrap_or(0),
        }
    }

    fn write_cell(&mut self, cell: u8, code: &str, next: u8, jumps: &[u8]) {
        let text = self.cell_text(cell, code, next, jumps);
        self.say(&text);
    }

    /// The WN of a cell, without the drive's address.
    pub fn cell_text(&mut self, cell: u8, code: &str, next: u8, jumps: &[u8]) -> String {
        let mut fields = vec!["WN".to_string(), self.cell(cell), code.to_string()];
        fields.extend(self.parameters(code, jumps));
        if code != "69" {
            fields.push(self.next_text(next));
        } else if self.slip() {
            fields.push(self.random.pick(&["", "000", "100"]).to_string());
        }
        fields.join(",")
    }

    fn next_text(&mut self, next: u8) -> String {
        if next == 0 {
            return "000".to_string();
        }
        self.cell(next)
    }

    /// The parameters of an instruction, a row to each code.
    fn parameters(&mut self, code: &str, jumps: &[u8]) -> Vec<String> {
        match code {
            "01" => self.indexed(&[(3, 24, 2), (10, 42, 2)]),
            "31" => self.indexed(&[(30, 240, 3), (10, 42, 2)]),
            "11" => self.indexed(&[(2, 30, 2)]),
            "21" => self.indexed(&[(1, 4800, 4)]),
            "02" => self.free(&[(3, 24, 2), (10, 42, 2)]),
            "32" => self.free(&[(30, 240, 3), (10, 42, 2)]),
            "12" => self.free(&[(2, 30, 2)]),
            "22" => self.free(&[(1, 4800, 4)]),
            "03" => self.zero_search(),
            "05" => self.delayed_stop(),
            "57" => self.cam_setting(),
            "58" => vec![self.name(&OUTPUTS), self.bit()],
            "61" => vec![self.loop_count()],
            "62" => vec![self.jump(jumps)],
            "63" => vec![self.name(&CONDITIONS), self.bit(), self.jump(jumps)],
            "65" => vec![self.delay()],
            "70" => vec![self.bit()],
            _ => vec![],
        }
    }

    /// Frequency and ramp as the ranges say, then steps and multiplier.
    fn indexed(&mut self, ranges: &[(i64, i64, usize)]) -> Vec<String> {
        let mut fields = self.ranges(ranges);
        fields.push(self.steps());
        fields.push(self.multiplier());
        fields
    }

    fn free(&mut self, ranges: &[(i64, i64, usize)]) -> Vec<String> {
        let mut fields = self.ranges(ranges);
        fields.push(self.sign());
        fields.push(self.multiplier());
        fields
    }

    fn ranges(&mut self, ranges: &[(i64, i64, usize)]) -> Vec<String> {
        ranges.iter().map(|(low, high, width)| self.exact(*low, *high, *width)).collect()
    }

    fn zero_search(&mut self) -> Vec<String> {
        let mut fields = self.ranges(&[(3, 24, 2), (10, 42, 2)]);
        fields.push(self.sign());
        fields.push(self.exact(2, 30, 2));
        fields
    }

    /// A delayed stop brakes over few steps, so that a script sees the end of it.
    fn delayed_stop(&mut self) -> Vec<String> {
        let mut fields = self.ranges(&[(3, 24, 2), (10, 42, 2)]);
        fields.push(self.sign());
        let high = if self.random.once_in(12) { MOST_STEPS } else { 3 };
        let steps = self.value(0, high);
        fields.push(self.digits(steps));
        fields.push(self.multiplier());
        fields
    }

    fn cam_setting(&mut self) -> Vec<String> {
        let place = self.place();
        vec![self.bit(), self.signed(place)]
    }

    fn loop_count(&mut self) -> String {
        let high = if self.random.once_in(8) { 65_535 } else { 3 };
        let count = self.value(1, high);
        self.digits(count)
    }

    fn delay(&mut self) -> String {
        let long = self.random.pick(&[65_535, LONGEST_DELAY]);
        let high = self.random.pick(&[1, 3, 3, 5, 5, 8, 8, 60, 400, long]);
        let delay = self.value(0, high);
        self.digits(delay)
    }

    fn jump(&mut self, jumps: &[u8]) -> String {
        let cell = if jumps.is_empty() || self.random.once_in(20) {
            self.any_cell()
        } else {
            self.random.pick(jumps)
        };
        self.cell(cell)
    }

    /// Starts a cell by string, or by inputs where they can name it. The stops that would forbid it
    /// are mostly off.
    pub fn start(&mut self, cell: u8) {
        self.clear_stops();
        if cell > 115 || self.random.once_in(2) {
            let text = format!("PS,{}", self.cell(cell));
            self.say(&text);
        } else {
            self.start_by_inputs(cell);
        }
    }

    /// Starts a cell that holds something, or now and then any.
    pub fn start_again(&mut self) {
        let cell = self.used_cell();
        self.start(cell);
    }

    /// A cell that holds something, or now and then any.
    pub fn used_cell(&mut self) -> u8 {
        let used: Vec<u8> = (100..=230).filter(|cell| self.is_used(*cell)).collect();
        if used.is_empty() || self.random.once_in(20) {
            self.any_cell()
        } else {
            self.random.pick(&used)
        }
    }

    fn is_used(&self, cell: u8) -> bool {
        self.drive.cells[usize::from(cell) - 100].instruction
            != crate::instruction::Instruction::Null
    }

    /// A 69, alone or behind a cell that sets outputs or a loop count, mostly where there is a
    /// record to resume. Now and then the resolution has changed meanwhile.
    pub fn recovery(&mut self) {
        if self.drive.suspended.cell == 0 && !self.random.once_in(4) {
            return self.program();
        }
        if self.random.once_in(6) {
            let text = self.random.pick(&["WS,RS,D0", "WS,RS,B1", "WS,RS,D3"]);
            self.say(text);
        }
        let first = self.random.between(100, 229) as u8;
        if self.random.once_in(3) {
            let code = self.random.pick(&["61", "58", "65", "00", "60"]);
            self.write_cell(first, code, first + 1, &[]);
            self.write_cell(first + 1, "69", 0, &[]);
        } else {
            self.write_cell(first, "69", 0, &[]);
        }
        self.start(first);
    }

    /// A cell's own answer sent back with WN in place of QM, or with another next cell and nothing
    /// else changed. It is that of the interrupted cell half the time.
    pub fn write_back(&mut self) {
        let recorded = self.drive.suspended.cell;
        let cell = if recorded != 0 && self.random.once_in(2) { recorded } else { self.any_cell() };
        let request = self.own(&format!("QM,{cell}"));
        let mut buffer = [0; 64];
        let mut copy = self.drive;
        if let Ok(Some(length)) = copy.string(&request, &mut buffer) {
            let answer = String::from_utf8_lossy(&buffer[2..length - 1]).replacen("QM", "WN", 1);
            let text = if self.random.once_in(3) { self.another_next(&answer) } else { answer };
            self.say(&text);
        }
    }

    fn another_next(&mut self, text: &str) -> String {
        match text.rsplit_once(',') {
            Some((content, next)) if next.len() == 3 => format!("{content},{}", self.any_cell()),
            _ => text.to_string(),
        }
    }
}
