//! 02, Slip 2: totals before a start. "From a start cell, follow next addresses to 000 and give the
//! net steps (with multipliers, relative mode) and the delay milliseconds."

use crate::instruction::{is_address, Instruction, Instruction::*};
use crate::memory::Drive;

/// What a program adds up to from its start cell to 000.
#[derive(Clone, Copy, PartialEq, Eq, Debug, Default)]
pub struct Totals {
    /// The true sum, up to 131 × 33,554,428 either way, and so beyond 32 bits.
    pub net: i64,
    /// Milliseconds, up to 131 × 8,388,607.
    pub delay: u32,
}

impl Drive {
    /// 02: "11, start outside 100 to 230, after 2; then, whichever is met first along the walk, 12
    /// for a cell met twice and 13 for another code"
    pub fn totals(&self, start: u32) -> Result<Totals, u8> {
        self.refuse_unsound()?;
        let start = u8::try_from(start).ok().filter(|start| is_address(*start)).ok_or(11)?;
        let mut totals = Totals::default();
        let mut met = [false; 131];
        let mut next = start;
        while next != 0 {
            let place = usize::from(next - Drive::FIRST);
            if met[place] {
                return Err(12);
            }
            met[place] = true;
            let cell = &self.cells[place];
            totals.add(&cell.instruction)?;
            next = cell.next;
        }
        Ok(totals)
    }
}

impl Totals {
    /// 02: "Codes 00, 01, 11, 21, 31, 57, 58, 60, 65 and 70 are allowed." A run counts n×m, whether
    /// or not RS allows x4 now.
    fn add(&mut self, instruction: &Instruction) -> Result<(), u8> {
        match *instruction {
            IndexedRamp { steps, x4, .. }
            | Indexed { steps, x4, .. }
            | IndexedFine { steps, x4, .. }
            | IndexedRampFine { steps, x4, .. } => {
                self.net += i64::from(steps) * if x4 { 4 } else { 1 };
            }
            TimeDelay { milliseconds } => self.delay += milliseconds,
            Null
            | CamSetting { .. }
            | OutputSetting { .. }
            | CounterReset
            | CurrentSetting { .. } => {}
            _ => return Err(13),
        }
        Ok(())
    }
}
