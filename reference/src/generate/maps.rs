//! Maps of used cells asked for, and the edits that change them: ways among few cells added and
//! taken off, circles that lose their entry, and long chains.

use super::images::image_of;
use super::Generator;
use crate::instruction::{Cell, Instruction::Null};
use crate::memory::Drive;

/// Contents with one way and with two. What they do beside is no matter to a map.
const CODES: [(usize, &str); 10] = [
    (8, "00"),
    (2, "65"),
    (1, "58"),
    (1, "60"),
    (1, "11"),
    (1, "70"),
    (7, "62"),
    (6, "63"),
    (3, "69"),
    (1, "61"),
];

impl Generator {
    pub fn map(&mut self) {
        self.write("U");
    }

    /// Few cells written again and again, so that ways come and go; the map is looked at between.
    pub fn edit(&mut self) {
        let cells = self.edited_cells();
        for _ in 0..self.random.between(4, 14) {
            self.edit_one(&cells);
            if self.random.once_in(2) {
                self.map();
            }
        }
        self.map();
    }

    /// A WN that a busy drive is silent to.
    pub fn edit_while_busy(&mut self) {
        let cells = self.edited_cells();
        self.edit_one(&cells);
        if self.random.once_in(2) {
            self.map();
        }
    }

    /// One or two of the first 16 cells and a few others: neighbours, at an end of the memory, or
    /// strewn.
    fn edited_cells(&mut self) -> Vec<u8> {
        let mut cells = vec![self.random.pick(&[100, 101, 115])];
        if self.random.once_in(2) {
            cells.push(self.random.between(100, 115) as u8);
        }
        let first = self.random.pick(&[116, 116, 140, 225, 226]);
        for place in 0..self.random.between(2, 5) as u8 {
            let strewn = self.random.between(116, 230) as u8;
            cells.push(if self.random.once_in(4) { strewn } else { first + place });
        }
        cells
    }

    /// A WN among these cells, mostly in order.
    fn edit_one(&mut self, cells: &[u8]) {
        if self.random.once_in(12) {
            self.careless = Some(self.random.below(5));
        }
        let text = self.edit_text(cells);
        self.careless = None;
        match self.random.below(24) {
            0 => self.send(format!("99{text}\r").as_bytes()),
            1 => self
                .send(format!("{:02}{text}\r", (self.drive.presets.address + 1) % 48).as_bytes()),
            _ => self.say(&text),
        }
    }

    fn edit_text(&mut self, cells: &[u8]) -> String {
        let (cell, code) = (self.random.pick(cells), self.random.weighted(&CODES));
        let next = if self.random.once_in(4) { 0 } else { self.random.pick(cells) };
        self.cell_text(cell, code, next, cells)
    }

    /// A circle, often with shorter ones in it, and one entry or two, which are taken off then.
    pub fn circle(&mut self) {
        let length = self.random.between(1, 5) as u8;
        let first = self.random.pick(&[116, 120, 180, 225]);
        let cells: Vec<u8> = (first..=first + length).collect();
        for (place, cell) in cells.iter().enumerate() {
            let next = cells[(place + 1) % cells.len()];
            let code = self.random.pick(&["00", "00", "65", "62", "63"]);
            let text = self.cell_text(*cell, code, next, &cells);
            self.say(&text);
        }
        let entries = self.random.pick(&[&[100][..], &[115], &[100, 115], &[103, 104]]);
        for entry in entries {
            let into = self.random.pick(&cells);
            self.say(&format!("WN,{entry},00,{into}"));
        }
        self.map();
        for entry in entries {
            let elsewhere = self.random.pick(&["69", "00,000", "00,115", "60,200"]);
            self.say(&format!("WN,{entry},{elsewhere}"));
            self.map();
        }
    }

    /// A chain of many cells, read as an image. Its entry is in the image or written after it; then
    /// one of its cells and the entry get other ways.
    pub fn chain(&mut self) {
        let cells = self.chained_cells();
        let entry = self.random.pick(&[100, 107, 115]);
        let mut made = self.chained(&cells);
        if self.random.once_in(2) {
            made.cells[usize::from(entry) - 100].next = cells[0];
        }
        self.load_bytes(&image_of(&made));
        self.map();
        self.say(&format!("WN,{entry},65,3,{}", cells[0]));
        self.map();
        for cell in [self.random.pick(&cells), entry] {
            let next = self.random.pick(&cells);
            let code = self.random.pick(&["69", "00", "62"]);
            let text = self.cell_text(cell, code, next, &cells);
            self.say(&text);
            self.map();
        }
    }

    /// A fresh drive whose cells lead from each of these to the one behind it, and from the last to
    /// 000 or back.
    fn chained(&mut self, cells: &[u8]) -> Drive {
        let address = self.random.below(48) as u32;
        let mut made = Drive::fresh(address).expect("01 takes addresses up to 47");
        let last = if self.random.once_in(2) { 0 } else { self.random.pick(cells) };
        let nexts = cells[1..].iter().chain([&last]);
        for (cell, next) in cells.iter().zip(nexts) {
            made.cells[usize::from(cell - 100)] = Cell { instruction: Null, next: *next };
        }
        made
    }

    /// Cells 116 to 227 or some of them, each once.
    fn chained_cells(&mut self) -> Vec<u8> {
        let count = self.random.between(2, 112) as usize;
        // 112 is 16 times 7, so these steps meet every cell once.
        let step = self.random.pick(&[1, 111, 3, 5, 9, 37]);
        (0..count).map(|place| 116 + (place * step % 112) as u8).collect()
    }
}
