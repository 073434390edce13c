//! The indexed run that waits to be taken, by the text of its cell.

use crate::walks::{fields, indexed};
use reference::memory::{Drive, Phase};

/// 02: "A shift beyond 8,388,607 either way gives error 50 in both."
pub const LONGEST: i64 = 8_388_607;

/// n, m and the Hz at x1.
pub fn waiting(drive: &Drive) -> Option<(i64, i64, i64)> {
    let present = drive.cells.get(usize::from(drive.running.cell).checked_sub(100)?)?;
    if drive.running.phase != Phase::Waiting {
        return None;
    }
    let fields = fields(present);
    let (n, m) = indexed(&fields)?;
    let unit = match fields[0].as_str() {
        "01" => 1_000,
        "21" => 1,
        _ => 100,
    };
    Some((n, m, unit * fields[1].parse::<i64>().expect("a frequency")))
}
