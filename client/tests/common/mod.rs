//! The second implementation as an engine, and pseudo-random lists.
#![allow(dead_code)]

use cuminhamper::{Engine, List};
use std::ffi::OsString;

/// The program `reference`: REFERENCE, or where cargo leaves it.
pub fn reference() -> OsString {
    let built = concat!(env!("CARGO_MANIFEST_DIR"), "/../reference/target/release/reference");
    std::env::var_os("REFERENCE").unwrap_or_else(|| built.into())
}

pub fn engine() -> Engine {
    Engine::spawn(reference(), ["serve"]).expect(
        "build it by `cargo build --release --manifest-path reference/Cargo.toml`, or name it in \
         REFERENCE",
    )
}

/// A program with a run, an output, a delay and a run back, and its start.
pub const PROGRAM: [&[u8]; 5] = [
    b"00WN,100,11,05,+40,x1,101\r",
    b"00WN,101,58,O0,1,102\r",
    b"00WN,102,65,0003,103\r",
    b"00WN,103,01,05,20,-25,x1,000\r",
    b"00PS,100\r",
];

/// A small generator (Knuth's 64-bit multiplier), the same numbers for the same seed.
pub struct Random(pub u64);

impl Random {
    pub fn below(&mut self, end: u32) -> u32 {
        self.0 =
            self.0.wrapping_mul(6_364_136_223_846_793_005).wrapping_add(1_442_695_040_888_963_407);
        ((self.0 >> 33) % u64::from(end)) as u32
    }

    /// A list of one word. Most steps come by travel, so that programs reach their ends.
    pub fn word(&mut self, room: u8) -> List {
        let asked = [&b"00QA\r"[..], b"00EE\r", b"00PS,100\r", b"00ES\r", b"01QA\r", b"00XX\r"];
        let mut list = List::new();
        let made = match self.below(12) {
            0 => list.string(asked[self.below(6) as usize], room),
            1 => list.string(PROGRAM[self.below(5) as usize], room),
            2 => list.inputs(self.below(2_100) as u16),
            3 => list.step(),
            4 => list.at_speed(),
            5 => list.halted(),
            6 => list.wait(self.below(30)),
            7 => list.order(),
            8 | 9 => list.travel(self.below(50)),
            _ => list.millisecond(),
        };
        made.expect("one word has room");
        list
    }
}
