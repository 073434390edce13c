//! Records and images as scripts show them, over the drives of generated scripts.

use crate::scripts::walk;
use crate::{generated, made};
use reference::memory::Drive;
use reference::raw;
use reference::replay::replay;

const NAMES: [&str; 19] = [
    "ad", "in", "rs", "es", "cm", "pos", "inp", "camset", "campos", "errcode", "errcell",
    "reccell", "recrest", "recloop", "cell", "phase", "rest", "loop", "mark",
];

/// A fresh drive with the cells and outputs of another, to which the integers that are shown of that
/// one are written raw, each by its name.
fn rewritten(drive: &Drive) -> Drive {
    let fresh = Drive::fresh(0).expect("01 takes address 0");
    let filled = Drive { cells: drive.cells, outputs: drive.outputs, ..fresh };
    let shown = raw::print(drive);
    assert_eq!(shown.split(',').count(), NAMES.len());
    NAMES.iter().zip(shown.split(',')).fold(filled, |drive, (name, value)| {
        let written = raw::write(&drive, &[name, value]).expect("a well-formed raw write");
        written.expect("a value that the record holds")
    })
}

#[test]
fn a_record_is_what_its_integers_written_raw_make() {
    let mut seen = 0;
    walk(generated(), |moment| {
        seen += 1;
        if seen % 7 == 0 {
            assert_eq!(rewritten(moment.after), *moment.after);
        }
    });
}

/// The answer to the last call of a script.
fn last_answer(script: &str) -> String {
    let observations = replay(script).expect("a well-formed script");
    let last = observations.lines().last().and_then(|line| line.split(' ').nth(1));
    last.expect("an answer").to_string()
}

#[test]
fn an_image_that_is_shown_gives_a_drive_that_shows_the_same() {
    let mut images = 0;
    for script in made().iter().step_by(10) {
        let image = last_answer(&format!("{script}X\n"));
        if image != "-" {
            assert_eq!(last_answer(&format!("F 0\nL {image}\nX\n")), image);
            images += 1;
        }
    }
    assert!(images > 100, "{images} images");
}
