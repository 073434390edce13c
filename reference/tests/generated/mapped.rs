//! 02, Slip 5, over the drives of generated scripts: the map that is kept, and what scripts show of
//! it.

use crate::reached::{all_ways, by_passes};
use crate::scripts::{walk, Call};
use crate::{edits, generated, made};
use reference::replay::replay;

#[test]
fn the_map_kept_is_what_a_fresh_count_gives() {
    edits::kept_is_counted(generated());
}

/// A map as a script shows it.
fn shown(map: &str) -> Vec<bool> {
    let digits = map.chars().map(|digit| digit.to_digit(16).expect("a hex digit"));
    digits.flat_map(|digit| [8, 4, 2, 1].map(|bit| digit & bit != 0)).collect()
}

#[test]
fn a_script_shows_the_map_of_its_cells() {
    let observations: Vec<String> =
        made().iter().map(|script| replay(script).expect("a well-formed script")).collect();
    let mut lines = observations.iter().flat_map(|text| text.lines());
    let mut maps = 0;
    walk(generated(), |moment| {
        let line = lines.next().expect("a line to each call");
        let answer = line.split(' ').nth(1).expect("an answer");
        match moment.call {
            Call::Map if moment.before.sound() => {
                let cells = by_passes(&all_ways(moment.before));
                assert_eq!(shown(answer), [&cells[..], &[false]].concat());
                maps += 1;
            }
            Call::Map => assert_eq!(answer, "-"),
            _ => {}
        }
    });
    assert!(maps > 10_000, "{maps} maps");
}
