//! 02, Slip 2, over the drives of generated scripts: totals by the texts of the cells, and by what a
//! run makes.

use crate::board::Board;
use crate::scripts::{walk, Call};
use crate::walks::{by_texts, walked};
use crate::{allows_x4, generated, idle_drives};
use reference::generate::random::Random;
use reference::memory::Drive;

// Neither presets nor position, record, inputs or a program under way enter: the texts of the cells
// say it all.
#[test]
fn totals_are_those_of_the_texts() {
    walk(generated(), |moment| {
        let Call::Totals(start) = *moment.call else { return };
        let result = moment.seen.totals.ok_or(moment.seen.refusal.unwrap_or(0));
        assert_eq!(result, by_texts(moment.before, start));
        assert_eq!(moment.before, moment.after);
    });
}

#[test]
fn totals_from_every_start_are_those_of_the_texts() {
    let mut seen = 0;
    walk(generated(), |moment| {
        seen += 1;
        if seen % 300 == 0 {
            for start in (0..=260).chain([356, 65_636, u32::MAX]) {
                assert_eq!(moment.after.totals(start), by_texts(moment.after, start), "{start}");
            }
        }
    });
}

/// Whether a start makes the steps of its totals: relative mode, an RS that allows x4, EE off.
fn makes_its_steps(drive: &Drive) -> bool {
    allows_x4(drive) && !drive.presets.absolute && !drive.inputs.ee
}

/// Steps there and back, and milliseconds, that are soon given.
fn is_short(drive: &Drive, start: u8) -> bool {
    let walked = walked(drive, start);
    let steps: u64 = walked.steps().iter().map(|steps| steps.unsigned_abs()).sum();
    walked.cells.len() > 1 && steps + u64::from(walked.delays().iter().sum::<u32>()) < 500
}

// 02: "The steps are those that an uninterrupted run makes, if RS allows x4."
#[test]
fn a_program_of_a_script_runs_as_its_totals_say() {
    let mut programs = 0;
    idle_drives(100, |seed, drive| {
        let mut random = Random::new(seed as u64);
        for start in (100..=230).filter(|_| makes_its_steps(drive)) {
            let Ok(totals) = drive.totals(start.into()) else { continue };
            if !is_short(drive, start) {
                continue;
            }
            let mut board = Board::start(*drive, start, &mut random);
            board.run(usize::MAX);
            assert_eq!((board.net, board.delay), (totals.net, totals.delay));
            assert_eq!(board.taken, walked(drive, start).cells.len());
            assert_eq!(board.drive.suspended, drive.suspended);
            programs += 1;
        }
    });
    assert!(programs > 1_500, "{programs} programs");
}
