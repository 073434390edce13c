//! Random scripts of calls in the format of `replay`: mostly sensible, often nearly so, sometimes
//! not at all.
//!
//! The generator carries its own drive through the script it writes and looks at it to choose the
//! next call: an idle drive is mostly programmed and started, a waiting one given milliseconds, a
//! moving one reports of the board. What a call does is left to the drive, so a script is a list of
//! calls and no judgement on them.

mod cells;
mod delays;
mod events;
mod fields;
mod images;
pub mod layout;
pub mod lists;
mod maps;
mod modes;
pub mod random;
mod raw;
mod strings;
mod totals;
pub mod walks;

use crate::memory::Drive;
use random::Random;
use std::fmt::Write;

/// A random script of `calls` calls, always the same for the same seed. Its first call is an
/// accepted `F`.
pub fn script(seed: u64, calls: usize) -> String {
    let mut generator = Generator::new(seed, calls);
    while generator.left > 0 {
        generator.next_call();
    }
    generator.lines
}

struct Generator {
    random: Random,
    /// Says when the drive is looked at, beside the other calls.
    looks: Random,
    drive: Drive,
    lines: String,
    /// The calls that are still to be written.
    left: usize,
    /// While set, the field after so many others gets a wrong form or a value out of range by one.
    careless: Option<usize>,
    /// The raw write that takes the last one back.
    mend: String,
}

/// One kind of call, or a short run of calls that belong together.
type Kind = fn(&mut Generator);

const WHILE_IDLE: [(usize, Kind); 38] = [
    (30, Generator::program),
    (9, Generator::looped_program),
    (6, Generator::jump_program),
    (14, Generator::start_again),
    (14, Generator::recovery),
    (12, Generator::command),
    (10, Generator::request),
    (10, Generator::look),
    (14, Generator::near_miss),
    (16, Generator::careless_string),
    (3, Generator::malformed),
    (3, Generator::foreign),
    (4, Generator::broadcast),
    (5, Generator::cam_nearby),
    (3, Generator::position_at_the_end),
    (3, Generator::absolute_limit),
    (2, Generator::long_rest),
    (2, Generator::count_at_an_end),
    (2, Generator::long_delay),
    (5, Generator::write_back),
    (6, Generator::any_inputs),
    (4, Generator::quiet_inputs),
    (2, Generator::wait),
    (2, Generator::one_millisecond),
    (2, Generator::any_report),
    (1, Generator::board_order),
    (2, Generator::rounding),
    (4, Generator::reading),
    (5, Generator::raw_write),
    (1, Generator::fresh),
    (12, Generator::save),
    (18, Generator::load),
    (6, Generator::totals),
    (8, Generator::walk),
    (4, Generator::map),
    (5, Generator::edit),
    (3, Generator::circle),
    (2, Generator::chain),
];

const WHILE_WAITING: [(usize, Kind); 18] = [
    (50, Generator::milliseconds),
    (16, Generator::wait),
    (9, Generator::stop_string),
    (9, Generator::stop_inputs),
    (3, Generator::near_stop),
    (4, Generator::any_inputs),
    (2, Generator::start_inputs),
    (4, Generator::any_string),
    (3, Generator::any_report),
    (1, Generator::board_order),
    (1, Generator::rounding),
    (1, Generator::reading),
    (3, Generator::raw_write),
    (2, Generator::save),
    (1, Generator::load_mostly_damaged),
    (4, Generator::totals),
    (2, Generator::map),
    (2, Generator::edit_while_busy),
];

const WHILE_MOVING: [(usize, Kind); 18] = [
    (60, Generator::right_report),
    (7, Generator::any_report),
    (16, Generator::stop_string),
    (16, Generator::stop_inputs),
    (2, Generator::near_stop),
    (5, Generator::any_inputs),
    (2, Generator::start_inputs),
    (3, Generator::any_string),
    (4, Generator::one_millisecond),
    (3, Generator::wait),
    (2, Generator::board_order),
    (1, Generator::reading),
    (6, Generator::raw_write),
    (2, Generator::save),
    (1, Generator::load_mostly_damaged),
    (4, Generator::totals),
    (2, Generator::map),
    (2, Generator::edit_while_busy),
];

/// Every operation once on a record that is unsound, and soon the way back.
const WHILE_UNSOUND: [(usize, Kind); 16] = [
    (14, Generator::mend),
    (2, Generator::fresh),
    (3, Generator::any_string),
    (2, Generator::any_inputs),
    (2, Generator::one_millisecond),
    (3, Generator::any_report),
    (2, Generator::wait),
    (2, Generator::board_order),
    (1, Generator::stop_string),
    (1, Generator::rounding),
    (1, Generator::reading),
    (1, Generator::raw_write),
    (2, Generator::save),
    (1, Generator::load_mostly_damaged),
    (2, Generator::totals),
    (2, Generator::map),
];

impl Generator {
    fn new(seed: u64, calls: usize) -> Generator {
        let mut random = Random::new(seed);
        let address = if random.once_in(2) { 0 } else { random.below(48) };
        let mut generator = Generator {
            random,
            looks: Random::new(!seed),
            drive: Drive::fresh(0).expect("01 takes address 0"),
            lines: String::new(),
            left: calls,
            careless: None,
            mend: String::new(),
        };
        generator.fresh_at(address);
        generator
    }

    fn next_call(&mut self) {
        let table: &[(usize, Kind)] = if !self.drive.sound() {
            &WHILE_UNSOUND
        } else if self.drive.idle() {
            &WHILE_IDLE
        } else if self.drive.moving() {
            &WHILE_MOVING
        } else {
            &WHILE_WAITING
        };
        let kind = self.random.weighted(table);
        kind(self);
    }

    /// Writes the line of one call. Nothing is written, and false handed back, where the script is
    /// full.
    fn write(&mut self, line: &str) -> bool {
        if self.left == 0 {
            return false;
        }
        self.left -= 1;
        self.lines.push_str(line);
        self.lines.push('\n');
        self.look_at_the_drive();
        true
    }

    /// The record or the image, now and then behind another call. The other calls of a seed are what
    /// they are without these.
    fn look_at_the_drive(&mut self) {
        if self.left > 0 && self.looks.once_in(40) {
            self.left -= 1;
            self.lines.push_str(self.looks.weighted(&[(3, "V\n"), (1, "X\n")]));
        }
    }

    fn fresh_at(&mut self, address: usize) {
        if self.write(&format!("F {address}")) {
            if let Ok(drive) = Drive::fresh(address as u32) {
                self.drive = drive;
            }
        }
    }

    /// A string, given with a buffer that is sometimes short, sometimes long and mostly of 64
    /// bytes.
    fn send(&mut self, bytes: &[u8]) {
        let (length, fill) = self.buffer();
        let shown = if bytes.is_empty() { "-".to_string() } else { hex(bytes) };
        if self.write(&format!("S {shown} {length} {fill}")) {
            let mut buffer = vec![fill; length];
            let _ = self.drive.string(bytes, &mut buffer);
        }
    }

    /// The text behind the drive's own address, ended by byte 13.
    fn say(&mut self, text: &str) {
        let bytes = self.own(text);
        self.send(&bytes);
    }

    fn own(&self, text: &str) -> Vec<u8> {
        format!("{:02}{text}\r", self.drive.presets.address).into_bytes()
    }

    fn buffer(&mut self) -> (usize, u8) {
        let length = match self.random.below(80) {
            0 | 1 => self.random.pick(&[0, 1, 4, 20, 62, 63]),
            2 => self.random.below(64),
            3 | 4 => self.random.pick(&[65, 256]),
            5 => 64 + self.random.below(193),
            _ => 64,
        };
        let fill = if self.random.once_in(4) { self.random.below(256) } else { 0 };
        (length, fill as u8)
    }

    fn inputs(&mut self, word: u32) {
        if self.write(&format!("I {word}")) {
            let _ = self.drive.inputs(word);
        }
    }
}

fn hex(bytes: &[u8]) -> String {
    bytes.iter().fold(String::new(), |mut text, byte| {
        let _ = write!(text, "{byte:02x}");
        text
    })
}
