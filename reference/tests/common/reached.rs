//! Used cells by another count: by the texts of the cells, in passes until nothing changes.

use reference::instruction::Cell;
use reference::memory::Drive;
use reference::usage::UsedCells;

/// A bit for each cell from 100 on.
pub type Bits = [bool; 131];

/// Where each cell leads, as places from 0 on.
pub type Ways = Vec<Vec<usize>>;

/// The ways of a cell, by what QM shows of it after its address: DDD comes last, and the EEE of a
/// 62 or a 63 before it.
pub fn ways(text: &str) -> Vec<usize> {
    let fields: Vec<&str> = text.split(',').collect();
    let count = match fields[0] {
        "69" => 0,
        "62" | "63" => 2,
        _ => 1,
    };
    let addresses = fields[fields.len() - count..].iter().map(|field| field.parse());
    let addresses = addresses.map(|address: Result<usize, _>| address.expect("an address"));
    addresses.filter(|address| *address != 0).map(|address| address - 100).collect()
}

pub fn all_ways(drive: &Drive) -> Ways {
    drive.cells.iter().map(|cell: &Cell| ways(&cell.print())).collect()
}

/// 02: "the cells that can be reached from cells 100 to 115 through DDD and EEE, these 16 included"
pub fn by_passes(ways: &Ways) -> Bits {
    let mut reached = [false; 131];
    reached[..16].fill(true);
    loop {
        let before = reached;
        for (place, targets) in ways.iter().enumerate() {
            if reached[place] {
                targets.iter().for_each(|target| reached[*target] = true);
            }
        }
        if reached == before {
            return reached;
        }
    }
}

/// What a map shows.
pub fn bits(used: &UsedCells) -> Bits {
    std::array::from_fn(|place| used.has(100 + place as u8))
}

/// Whether some of these cells lead round among themselves. Those that lead to none of them are
/// left out, again and again.
pub fn has_circle(ways: &Ways, cells: &Bits) -> bool {
    let mut left = *cells;
    loop {
        let leads_on = |place: usize| ways[place].iter().any(|target| left[*target]);
        let fewer: Bits = std::array::from_fn(|place| left[place] && leads_on(place));
        if fewer == left {
            return left.contains(&true);
        }
        left = fewer;
    }
}
