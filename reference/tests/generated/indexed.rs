//! 02, Slip 4, over generated scripts: indexed runs in both modes, by the texts of their cells.

use crate::scripts::{walk, Call};
use crate::targets::{waiting, LONGEST};
use crate::{allows_x4, generated};
use reference::board::Order;
use reference::memory::{Drive, Phase, Remaining};
use std::collections::BTreeMap;

/// What becomes of an indexed run that a millisecond takes.
#[derive(Clone, Copy, PartialEq, Eq, Debug)]
enum Taken {
    Fault(u8),
    PassedOn,
    Runs { hertz: i64, shift: i64 },
}

/// 01: "x4 with RS not D2, D3, B2, B3 is error 51"; "Indexed: shift = n×m"; "Shift 0 passes on."
/// 02: "In absolute mode n is the target itself for x1 and x4; only the frequency is multiplied."
fn by_text(drive: &Drive) -> Option<Taken> {
    let (n, m, hertz) = waiting(drive)?;
    let absolute = drive.presets.absolute;
    let shift = if absolute { n - i64::from(drive.position) } else { n * m };
    Some(if m == 4 && !allows_x4(drive) {
        Taken::Fault(51)
    } else if absolute && !(-LONGEST..=LONGEST).contains(&shift) {
        Taken::Fault(50)
    } else if shift == 0 {
        Taken::PassedOn
    } else {
        Taken::Runs { hertz: hertz * m, shift }
    })
}

/// What is seen after it: the error, the next cell, or the order to the board.
fn assert_taken(before: &Drive, after: &Drive, expected: Taken) {
    let present = before.running.cell;
    match expected {
        Taken::Fault(code) => {
            assert_eq!((after.idle(), after.fault.code, after.fault.cell), (true, code, present));
        }
        Taken::PassedOn => {
            let next = before.present().next;
            assert_eq!((after.running.phase, after.running.cell), (Phase::Waiting, next));
        }
        Taken::Runs { hertz, shift } => {
            let order = after.order();
            let Ok(Order::Run { forward, hertz: shown, remaining, .. }) = order else {
                panic!("{order:?} for a run")
            };
            assert_eq!((forward, i64::from(remaining)), (shift > 0, shift));
            assert_eq!(i64::from(shown), hertz);
        }
    }
}

#[test]
fn indexed_runs_begin_as_their_texts_say() {
    let mut counts = BTreeMap::new();
    walk(generated(), |moment| {
        if *moment.call != Call::Millisecond || !moment.before.sound() {
            return;
        }
        let Some(expected) = by_text(moment.before) else { return };
        assert_taken(moment.before, moment.after, expected);
        let times = waiting(moment.before).map_or(1, |(_, m, _)| m);
        let kind = match expected {
            Taken::Runs { .. } => "runs",
            Taken::PassedOn => "passes on",
            Taken::Fault(51) => "51",
            Taken::Fault(_) => "50",
        };
        *counts.entry((moment.before.presets.absolute, times, kind)).or_insert(0) += 1;
    });
    for (absolute, times) in [(false, 1), (false, 4), (true, 1), (true, 4)] {
        let of = |kind| counts.get(&(absolute, times, kind)).copied().unwrap_or(0);
        assert!(of("runs") > 500 && of("passes on") > 50, "{counts:?}");
        assert_eq!(of("50") > 50, absolute, "{counts:?}");
        assert_eq!(of("51") > 50, times == 4, "{counts:?}");
    }
}

// 01, of 69: "resumed .. with its rest as shift or delay (error 51 is judged again, 50 not)"
#[test]
fn a_rest_of_steps_is_a_shift_in_both_modes() {
    let (mut resumed, mut long) = (0, 0);
    walk(generated(), |moment| {
        let (before, after) = (moment.before, moment.after);
        let Remaining::Steps(rest) = before.suspended.remaining else { return };
        let emptied = before.suspended.cell != 0 && after.suspended.cell == 0;
        let recovered = *moment.call == Call::Millisecond && before.sound() && emptied;
        if !recovered || after.fault.code == 51 {
            return;
        }
        assert_eq!(after.running.remaining, Remaining::Steps(rest));
        assert_eq!((after.running.phase, after.fault.code), (Phase::Run, 0));
        resumed += 1;
        long += u32::from(before.presets.absolute && i64::from(rest).abs() > LONGEST);
    });
    assert!(resumed > 500, "{resumed} rests resumed");
    assert!(long > 50, "{long} of them longer than an absolute run");
}
