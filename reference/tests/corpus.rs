//! The script that the program `replay` is run on covers by itself what the generated scripts cover,
//! each thing at least once.

#[path = "common/coverage.rs"]
mod coverage;
#[path = "common/delays.rs"]
mod delays;
#[path = "common/edits.rs"]
mod edits;
#[path = "common/images.rs"]
mod images;
#[path = "common/reached.rs"]
mod reached;
#[path = "common/scripts.rs"]
mod scripts;
#[path = "common/targets.rs"]
mod targets;
#[path = "common/walks.rs"]
mod walks;

use scripts::{calls, walk, Call};
use walks::by_texts;

const SCRIPT: &str = include_str!("../../crates/replay/stdin");

fn corpus() -> [Vec<Call>; 1] {
    [calls(SCRIPT)]
}

#[test]
fn it_has_20_000_calls_or_more() {
    assert!(corpus()[0].len() >= 20_000);
}

#[test]
fn every_phase_of_every_code_occurs() {
    coverage::phases(&corpus(), 1);
}

#[test]
fn every_raw_write_makes_sound_records_and_others() {
    coverage::raw_writes(&corpus(), 1);
}

#[test]
fn every_event_meets_every_phase_of_every_code() {
    coverage::events_in_phases(&corpus(), 1);
}

#[test]
fn every_refusal_of_every_operation_occurs() {
    coverage::refusals(&corpus(), 1);
}

#[test]
fn every_command_and_request_is_accepted_and_rejected() {
    coverage::commands(&corpus(), 1);
}

#[test]
fn every_instruction_and_preset_is_accepted_and_rejected() {
    coverage::instructions_and_presets(&corpus(), 1);
}

#[test]
fn every_rare_happening_occurs() {
    coverage::happenings(&corpus(), 1);
}

#[test]
fn images_are_written_and_read_in_every_state_and_refused() {
    coverage::images(&corpus(), 1);
}

#[test]
fn every_field_of_an_image_is_at_its_ends_and_beyond_them() {
    coverage::image_fields(&corpus(), 1);
}

#[test]
fn delays_and_loop_counts_are_stored_at_their_ends() {
    delays::ends(&corpus(), 1);
}

#[test]
fn longer_delays_are_waited_in_stopped_resumed_and_kept() {
    delays::happenings(&corpus(), 1);
}

#[test]
fn older_gateways_refuse_longer_waits_and_read_the_others() {
    delays::older_gateways(&corpus(), 1);
}

#[test]
fn totals_are_asked_in_every_state_and_refused() {
    coverage::totals(&corpus(), 1);
}

#[test]
fn walks_of_every_kind_are_added_up() {
    coverage::walks(&corpus(), 1);
}

#[test]
fn maps_are_asked_for_in_every_state() {
    edits::maps(&corpus(), 1);
}

#[test]
fn records_are_shown_in_every_phase_and_images_in_every_state() {
    coverage::looks(&corpus(), 1);
}

#[test]
fn ways_of_every_kind_are_added_and_taken_off() {
    edits::edits(&corpus(), 1);
}

#[test]
fn the_map_kept_is_what_a_fresh_count_gives() {
    edits::kept_is_counted(&corpus());
}

#[test]
fn totals_are_those_of_the_texts() {
    walk(&corpus(), |moment| {
        let Call::Totals(start) = *moment.call else { return };
        let result = moment.seen.totals.ok_or(moment.seen.refusal.unwrap_or(0));
        assert_eq!(result, by_texts(moment.before, start));
    });
}
