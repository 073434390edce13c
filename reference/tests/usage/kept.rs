//! A drive with its map. Each string goes to a drive without one too, and each map is counted anew
//! in another way.

use crate::reached::{all_ways, bits, by_passes};
use reference::memory::Drive;
use reference::usage::UsedCells;

#[derive(Clone, Copy)]
pub struct Kept {
    pub drive: Drive,
    pub used: UsedCells,
}

/// A fresh drive of address 00 after some WNs, given without `00WN,` and parted by spaces. Each is
/// answered Y.
pub fn written(cells: &str) -> Kept {
    let mut kept = Kept::fresh();
    kept.write(cells);
    kept
}

/// What the map shows after such WNs.
pub fn shows(cells: &str, used: &str) {
    assert_eq!(written(cells).shown(), used, "after {cells}");
}

impl Kept {
    pub fn fresh() -> Kept {
        Kept::of(Drive::fresh(0).expect("01 takes address 0"))
    }

    pub fn of(drive: Drive) -> Kept {
        let kept = Kept { drive, used: UsedCells::count(&drive) };
        kept.check();
        kept
    }

    pub fn write(&mut self, cells: &str) {
        for text in cells.split(' ') {
            assert_eq!(self.tell(&format!("00WN,{text}")), "00Y", "{text} of {cells}");
        }
    }

    /// A string with byte 13 and a buffer of 64 bytes: its answer without byte 13, or `silent`.
    pub fn tell(&mut self, text: &str) -> String {
        let mut buffer = [0; 64];
        match self.string(format!("{text}\r").as_bytes(), &mut buffer).expect("no refusal") {
            None => "silent".to_string(),
            Some(length) => String::from_utf8_lossy(&buffer[..length - 1]).into_owned(),
        }
    }

    /// 02: "no answer depends on it": a drive without a map does the same. And the map is then what
    /// a fresh count gives.
    pub fn string(&mut self, bytes: &[u8], buffer: &mut [u8]) -> Result<Option<usize>, u8> {
        let (mut alone, mut same) = (self.drive, buffer.to_vec());
        let result = self.used.string(&mut self.drive, bytes, buffer);
        assert_eq!(result, alone.string(bytes, &mut same));
        assert_eq!((self.drive, &buffer[..]), (alone, &same[..]));
        if self.drive.sound() {
            self.check();
        }
        result
    }

    fn check(&self) {
        assert_eq!(bits(&self.used), by_passes(&all_ways(&self.drive)));
        assert_eq!(self.used, UsedCells::count(&self.drive));
    }

    /// The used cells beside the first 16, neighbours as `116-118`.
    pub fn shown(&self) -> String {
        assert!((100..=115).all(|cell| self.used.has(cell)));
        let mut runs: Vec<(u8, u8)> = vec![];
        for cell in (116..=230).filter(|cell| self.used.has(*cell)) {
            match runs.last_mut() {
                Some((_, last)) if *last + 1 == cell => *last = cell,
                _ => runs.push((cell, cell)),
            }
        }
        let texts = runs.iter().map(|(first, last)| match first == last {
            true => format!("{first}"),
            false => format!("{first}-{last}"),
        });
        texts.collect::<Vec<_>>().join(" ")
    }
}
