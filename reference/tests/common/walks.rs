//! What is met from a start cell on, by the texts of the cells and nothing else.

use reference::instruction::Cell;
use reference::memory::Drive;
use reference::totals::Totals;

/// 02: "Codes 00, 01, 11, 21, 31, 57, 58, 60, 65 and 70 are allowed."
pub const ALLOWED: [&str; 10] = ["00", "01", "11", "21", "31", "57", "58", "60", "65", "70"];

/// What ends a walk.
#[derive(Clone, Copy, PartialEq, Eq, Debug)]
pub enum Ended {
    /// Next 000.
    At000,
    /// The last cell leads to this one, which was met before.
    MetTwice(u8),
    /// The last cell is of another code.
    OtherCode,
}

/// The cells that are met, by address and by their fields after it in QM, and what ends the walk.
#[derive(Clone, PartialEq, Eq, Debug)]
pub struct Walked {
    pub cells: Vec<(u8, Vec<String>)>,
    pub ended: Ended,
}

/// The walk from a cell of a sound drive.
pub fn walked(drive: &Drive, start: u8) -> Walked {
    let mut cells = vec![];
    let mut address = start;
    let ended = loop {
        if address == 0 {
            break Ended::At000;
        }
        if cells.iter().any(|(met, _)| *met == address) {
            break Ended::MetTwice(address);
        }
        let fields = fields(&drive.cells[usize::from(address) - 100]);
        let (allowed, next) =
            (ALLOWED.contains(&fields[0].as_str()), fields[fields.len() - 1].parse());
        cells.push((address, fields));
        if !allowed {
            break Ended::OtherCode;
        }
        address = next.expect("a next");
    };
    Walked { cells, ended }
}

/// 02: "11, start outside 100 to 230, after 2; then, whichever is met first along the walk, 12 for a
/// cell met twice and 13 for another code". Of a sound drive nothing but the cells is looked at.
pub fn by_texts(drive: &Drive, start: u32) -> Result<Totals, u8> {
    if !drive.sound() {
        return Err(2);
    }
    if !(100..=230).contains(&start) {
        return Err(11);
    }
    let walked = walked(drive, start as u8);
    match walked.ended {
        Ended::At000 => {
            Ok(Totals { net: walked.steps().iter().sum(), delay: walked.delays().iter().sum() })
        }
        Ended::MetTwice(_) => Err(12),
        Ended::OtherCode => Err(13),
    }
}

impl Walked {
    /// n×m of each cell, 0 of those that are no run.
    pub fn steps(&self) -> Vec<i64> {
        self.cells.iter().map(|(_, fields)| steps(fields)).collect()
    }

    /// nnn of each 65.
    pub fn delays(&self) -> Vec<u32> {
        let delays = self.cells.iter().filter(|(_, fields)| fields[0] == "65");
        delays.map(|(_, fields)| fields[1].parse().expect("nnn")).collect()
    }
}

/// The fields of a cell after its address in QM.
pub fn fields(cell: &Cell) -> Vec<String> {
    cell.print().split(',').map(str::to_string).collect()
}

/// n×m of an indexed run, else 0.
fn steps(fields: &[String]) -> i64 {
    indexed(fields).map_or(0, |(n, m)| n * m)
}

/// n and m of an indexed run, whose fields end in n, XX and DDD.
pub fn indexed(fields: &[String]) -> Option<(i64, i64)> {
    match fields {
        [code, .., n, times, _] if ["01", "11", "21", "31"].contains(&code.as_str()) => {
            Some((n.parse().expect("n"), if times == "x4" { 4 } else { 1 }))
        }
        _ => None,
    }
}
