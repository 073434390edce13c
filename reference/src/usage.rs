//! 02, Slip 5: a map of used cells. "Programmers look for free cells while editing." It stands
//! beside a drive: "The map isn't part of a drive and no answer depends on it."

use crate::command;
use crate::instruction::{is_address, Cell, Instruction::*};
use crate::memory::Drive;

/// 02: "a map of the cells that can be reached from cells 100 to 115 through DDD and EEE, these 16
/// included". The first is cell 100.
#[derive(Clone, Copy, PartialEq, Eq, Debug)]
pub struct UsedCells([bool; 131]);

impl UsedCells {
    /// A fresh count over the cells.
    pub fn count(drive: &Drive) -> UsedCells {
        let mut used = UsedCells([false; 131]);
        used.reach(drive, (100..=115).collect());
        used
    }

    /// Whether the cell at an address from 100 to 230 is used.
    pub fn has(&self, address: u8) -> bool {
        self.0[place(address)]
    }

    /// Gives a string to the drive, hands back what the drive does, and brings the map up to date.
    pub fn string(
        &mut self,
        drive: &mut Drive,
        bytes: &[u8],
        buffer: &mut [u8],
    ) -> Result<Option<usize>, u8> {
        let Some(address) = named_cell(bytes) else { return drive.string(bytes, buffer) };
        let before = ways(drive.cell(address));
        let result = drive.string(bytes, buffer);
        // Where the string was not taken, the ways are still the same.
        if self.has(address) {
            self.follow(drive, before, ways(drive.cell(address)));
        }
        result
    }

    /// 02: "bring it up to date with each WN, whether the new instruction adds a way or takes one
    /// off". A used cell had the ways before and has those after. What a lost way led to may still
    /// be reached by others, and cells of a circle reach one another, so then all is counted again.
    fn follow(&mut self, drive: &Drive, before: [u8; 2], after: [u8; 2]) {
        if before.iter().any(|way| *way != 0 && !after.contains(way)) {
            *self = UsedCells::count(drive);
        } else {
            self.reach(drive, after.into_iter().filter(|way| !before.contains(way)).collect());
        }
    }

    /// Adds some cells and all that can be reached from them. Cells of the map are not looked at
    /// again, and 0 is no cell.
    fn reach(&mut self, drive: &Drive, mut found: Vec<u8>) {
        while let Some(address) = found.pop() {
            if is_address(address) && !self.has(address) {
                self.0[place(address)] = true;
                found.extend(ways(drive.cell(address)));
            }
        }
    }
}

fn place(address: u8) -> usize {
    usize::from(address - Drive::FIRST)
}

/// 02: "through DDD and EEE". Only 62 and 63 have an EEE, and it counts whatever they look at. 0
/// where there is no way; a 69 has none.
fn ways(cell: Cell) -> [u8; 2] {
    match cell.instruction {
        ClosingLoop { jump } | ConditionalJump { jump, .. } => [cell.next, jump],
        _ => [cell.next, 0],
    }
}

/// The cell that a WN would write, if it is taken.
fn named_cell(bytes: &[u8]) -> Option<u8> {
    match bytes.get(2..8)? {
        [b'W', b'N', b',', address @ ..] => command::address(command::first_cell(address)).ok(),
        _ => None,
    }
}
