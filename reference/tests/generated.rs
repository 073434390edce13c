//! What holds of every call, over thousands of generated scripts; and, in `coverage`, that the
//! scripts reach what they are made to reach.

#[path = "generated/alike.rs"]
mod alike;
#[path = "common/board.rs"]
mod board;
#[path = "common/coverage.rs"]
mod coverage;
#[path = "common/delays.rs"]
mod delays;
#[path = "common/edits.rs"]
mod edits;
#[path = "common/images.rs"]
mod images;
#[path = "generated/indexed.rs"]
mod indexed;
#[path = "generated/kept.rs"]
mod kept;
#[path = "generated/looked.rs"]
mod looked;
#[path = "generated/mapped.rs"]
mod mapped;
#[path = "common/reached.rs"]
mod reached;
#[path = "common/rebuild.rs"]
mod rebuild;
#[path = "common/scripts.rs"]
mod scripts;
#[path = "generated/summed.rs"]
mod summed;
#[path = "common/targets.rs"]
mod targets;
#[path = "common/walks.rs"]
mod walks;

use rebuild::rebuild;
use reference::generate::script;
use reference::memory::{Drive, Phase, Remaining, Resolution};
use reference::reading::requests;
use reference::replay::replay;
use reference::wait::End;
use scripts::{calls, walk, Call};
use std::sync::OnceLock;

const SCRIPTS: u64 = 2_000;
const CALLS: usize = 300;

/// The scripts that all tests look at, made once.
fn made() -> &'static [String] {
    static MADE: OnceLock<Vec<String>> = OnceLock::new();
    MADE.get_or_init(|| (0..SCRIPTS).map(|seed| script(seed, CALLS)).collect())
}

/// The same, taken apart once.
fn generated() -> &'static [Vec<Call>] {
    static PARSED: OnceLock<Vec<Vec<Call>>> = OnceLock::new();
    PARSED.get_or_init(|| made().iter().map(|script| calls(script)).collect())
}

// A worse generator fails here.
#[test]
fn every_phase_of_every_code_occurs() {
    coverage::phases(generated(), 1_000);
}

#[test]
fn every_raw_write_makes_sound_records_and_others() {
    coverage::raw_writes(generated(), 10);
}

#[test]
fn every_event_meets_every_phase_of_every_code() {
    coverage::events_in_phases(generated(), 3);
}

#[test]
fn every_refusal_of_every_operation_occurs() {
    coverage::refusals(generated(), 20);
}

#[test]
fn every_command_and_request_is_accepted_and_rejected() {
    coverage::commands(generated(), 30);
}

#[test]
fn every_instruction_and_preset_is_accepted_and_rejected() {
    coverage::instructions_and_presets(generated(), 20);
}

#[test]
fn every_rare_happening_occurs() {
    coverage::happenings(generated(), 5);
}

#[test]
fn images_are_written_and_read_in_every_state_and_refused() {
    coverage::images(generated(), 20);
}

#[test]
fn every_field_of_an_image_is_at_its_ends_and_beyond_them() {
    coverage::image_fields(generated(), 3);
}

#[test]
fn delays_and_loop_counts_are_stored_at_their_ends() {
    delays::ends(generated(), 20);
}

#[test]
fn longer_delays_are_waited_in_stopped_resumed_and_kept() {
    delays::happenings(generated(), 5);
}

#[test]
fn older_gateways_refuse_longer_waits_and_read_the_others() {
    delays::older_gateways(generated(), 500);
}

#[test]
fn totals_are_asked_in_every_state_and_refused() {
    coverage::totals(generated(), 20);
}

#[test]
fn walks_of_every_kind_are_added_up() {
    coverage::walks(generated(), 5);
}

#[test]
fn maps_are_asked_for_in_every_state() {
    edits::maps(generated(), 20);
}

#[test]
fn records_are_shown_in_every_phase_and_images_in_every_state() {
    coverage::looks(generated(), 10);
}

#[test]
fn ways_of_every_kind_are_added_and_taken_off() {
    edits::edits(generated(), 50);
}

#[test]
fn a_seed_gives_one_script_that_begins_with_an_accepted_f() {
    for seed in (0..SCRIPTS).step_by(50) {
        let made = script(seed, CALLS);
        assert_eq!(made, script(seed, CALLS));
        assert_eq!(made.lines().count(), CALLS);
        let first = made.lines().next().and_then(|line| line.strip_prefix("F "));
        assert!(first
            .and_then(|address| address.parse().ok())
            .is_some_and(|address: u32| address <= 47));
    }
    assert_ne!(script(1, CALLS), script(2, CALLS));
}

#[test]
fn every_script_replays_with_one_line_to_a_call() {
    for script in made() {
        let observations = replay(script).expect("a well-formed script");
        assert_eq!(observations.lines().count(), CALLS);
        assert!(observations.lines().all(|line| line.split(' ').count() == 7));
    }
}

// 01, "What a drive holds": soundness is kept by every event.
#[test]
fn every_accepted_call_keeps_a_sound_drive_sound() {
    walk(generated(), |moment| {
        if moment.before.sound() && !matches!(moment.call, Call::Raw(_)) {
            assert!(moment.after.sound(), "{:?} on {:?}", moment.call, moment.before);
        }
    });
}

// 01: "Every refusal hands back its number, the drive as it came, and untouched buffers."
#[test]
fn a_refusal_changes_neither_drive_nor_buffer() {
    walk(generated(), |moment| {
        let sound = moment.before.sound();
        let needs_a_sound_drive = !matches!(
            moment.call,
            Call::Fresh(_) | Call::Rounding(_) | Call::Raw(_) | Call::Load(_) | Call::Record
        );
        if needs_a_sound_drive {
            assert_eq!(moment.seen.refusal == Some(2), !sound, "{:?}", moment.call);
        }
        if moment.seen.refusal.is_some() {
            assert_eq!(moment.before, moment.after, "{:?}", moment.call);
        }
    });
}

// 01: "Answers fill the front; later bytes keep their content."; "Silent means no effect and no
// answer."
#[test]
fn a_buffer_keeps_every_byte_behind_the_answer() {
    walk(generated(), |moment| {
        if let Call::String { bytes, length, fill } = moment.call {
            let answer = moment.seen.answer.unwrap_or(0);
            assert_eq!(moment.seen.buffer.len(), *length);
            assert!(moment.seen.buffer[answer..].iter().all(|byte| byte == fill));
            assert!(answer == 0 || moment.seen.buffer[answer - 1] == 13);
            if moment.seen.answer.is_none() && !bytes.starts_with(b"99") {
                assert_eq!(moment.before, moment.after);
            }
        }
    });
}

// 01: "Idle, these five are zero."; "a drive is idle while it has no present cell, moving while a
// run is under way"
#[test]
fn an_idle_drive_keeps_nothing_of_a_program() {
    walk(generated(), |moment| {
        let running = moment.after.running;
        if moment.after.sound() && moment.after.idle() {
            assert_eq!((running.cell, running.phase), (0, Phase::Waiting));
            assert_eq!(running.remaining, Remaining::Nothing);
            assert_eq!((running.loop_count, running.at_speed), (0, false));
            assert!(!moment.after.moving());
        }
    });
}

/// 01: "x4 with RS not D2, D3, B2, B3 is error 51"
fn allows_x4(drive: &Drive) -> bool {
    use Resolution::{B2, B3, D2, D3};
    matches!(drive.presets.resolution, D2 | D3 | B2 | B3)
}

/// Shows one in so many of the drives that are sound and idle.
fn idle_drives(every: usize, mut visit: impl FnMut(usize, &Drive)) {
    let mut seen = 0;
    walk(generated(), |moment| {
        if moment.after.idle() && moment.after.sound() {
            seen += 1;
            if seen % every == 0 {
                visit(seen, moment.after);
            }
        }
    });
    assert!(seen > 100_000, "{seen} idle drives");
}

/// The answers to the requests, without address and byte 13. Asking changes nothing.
fn answers(drive: &Drive, requests: &[Vec<u8>]) -> Vec<String> {
    let mut asked = *drive;
    let answer = |request: &Vec<u8>| {
        let mut buffer = [0; 64];
        let length = asked.string(request, &mut buffer).expect("sound").expect("idle");
        String::from_utf8_lossy(&buffer[2..length - 1]).into_owned()
    };
    let answers = requests.iter().map(answer).collect();
    assert_eq!(asked, *drive);
    answers
}

// 01, demand 3: the whole past of an idle drive is in its 165 answers.
#[test]
fn an_idle_drive_is_rebuilt_from_its_answers() {
    idle_drives(12, |_, drive| {
        let reading = answers(drive, &requests(drive.presets.address));
        assert_eq!(rebuild(&reading), *drive);
    });
}

// 01, demand 3: cell answers "sent straight back to it, in any order and as often as one likes,
// with WN in place of QM"
#[test]
fn cell_answers_sent_back_change_nothing() {
    idle_drives(24, |seed, drive| {
        let address = drive.presets.address;
        let cells = answers(drive, &requests(address)[..131]);
        let mut sent = *drive;
        for place in (0..131).chain(shuffled(seed as u64)) {
            let string = format!("{address:02}{}\r", cells[place].replacen("QM", "WN", 1));
            let mut buffer = [0; 64];
            let length = sent.string(string.as_bytes(), &mut buffer);
            assert_eq!(length, Ok(Some(4)), "{string}");
            assert_eq!(&buffer[..4], format!("{address:02}Y\r").as_bytes(), "{string}");
            assert_eq!(sent, *drive, "{string}");
        }
    });
}

/// Places of cells in no order and with repeats.
fn shuffled(seed: u64) -> impl Iterator<Item = usize> {
    let mut state = seed;
    std::iter::repeat_with(move || {
        state =
            state.wrapping_mul(6_364_136_223_846_793_005).wrapping_add(1_442_695_040_888_963_407);
        (state >> 33) as usize % 131
    })
    .take(60)
}

// 01: "Waiting gives milliseconds until idle, moving or the budget is spent, judged in that order
// before each, says which it was, and hands back how many were given, the drive being as after that
// many."
#[test]
fn a_wait_is_its_milliseconds_one_by_one() {
    walk(generated(), |moment| {
        if let (Call::Wait(budget), Some(wait)) = (moment.call, moment.seen.wait) {
            let mut drive = *moment.before;
            assert_eq!(by_milliseconds(&mut drive, *budget), wait);
            assert_eq!(drive, *moment.after);
        }
    });
}

fn by_milliseconds(drive: &mut Drive, budget: u32) -> (End, u32) {
    for given in 0..=budget {
        if drive.idle() {
            return (End::Idle, given);
        }
        if drive.moving() {
            return (End::Moving, given);
        }
        if given < budget {
            drive.millisecond().expect("a wait is refused where a millisecond is");
        }
    }
    (End::Spent, budget)
}
