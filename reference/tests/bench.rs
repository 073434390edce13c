//! 01, "Bench strings and near misses", and the points on which 01 leaves a choice or is easily
//! misread, each by a list of calls that tells the readings apart. A letter with a number, as in
//! A1, names such an open point, and what follows is the reading that is taken; 4.1 is a point of
//! 02's Slip 4, 6.1 one of its Slip 6. The notation is that of `common/lists.rs`. The console
//! program has its own tests, in `console.rs`.

#[path = "common/lists.rs"]
mod lists;

#[path = "bench/absolute.rs"]
mod absolute;
#[path = "bench/delays.rs"]
mod delays;
#[path = "bench/record.rs"]
mod record;
#[path = "bench/runs.rs"]
mod runs;
#[path = "bench/soundness.rs"]
mod soundness;
#[path = "bench/stops.rs"]
mod stops;
#[path = "bench/strings.rs"]
mod strings;

use lists::list;
use reference::frequency::round_frequency;
use reference::memory::Drive;

/// Every text, parted by spaces, gets N from an idle fresh drive of address 00 and leaves it as it
/// was.
fn all_rejected(texts: &str) {
    for text in texts.split(' ') {
        let drive = list(&format!("s 00{text} = 00N"));
        assert_eq!(drive, Drive::fresh(0).unwrap(), "{text}");
    }
}

/// Every text, parted by spaces, gets Y from an idle fresh drive of address 00.
fn all_accepted(texts: &str) {
    for text in texts.split(' ') {
        list(&format!("s 00{text}"));
    }
}

/// What is stored in cell 100 by the first text reads back as the second.
fn reads_back(stored: &str, read: &str) {
    list(&format!("s 00WN,100,{stored}; s 00QM,100 = 00QM,100,{read}"));
}

// ---- 01, "Bench strings and near misses"

// 01: "* 1→1; * 224→224; * 318→318; * 319→318; * 320→320; * 2200→2181; * 4799→4571; * 4800→4800; 0
// and 4801 refused."
#[test]
fn frequencies_round_down_to_the_table() {
    let table = [
        (1, 1),
        (224, 224),
        (318, 318),
        (319, 318),
        (320, 320),
        (2200, 2181),
        (4799, 4571),
        (4800, 4800),
    ];
    for (sent, rounded) in table {
        assert_eq!(round_frequency(sent), Ok(rounded));
    }
    for outside in [0, 4801, 65_536, u32::MAX] {
        assert_eq!(round_frequency(outside), Err(7));
    }
}

// 01: "the table is every whole part of 96,000 / d, d from 20 to 96,000, rising, 599 numbers from 1
// to 4800"
#[test]
fn every_frequency_rounds_to_the_greatest_whole_part_not_above_it() {
    let mut parts: Vec<u32> = (20..=96_000).map(|d| 96_000 / d).collect();
    parts.sort_unstable();
    parts.dedup();
    assert_eq!((parts.len(), parts[0], parts[598]), (599, 1, 4800));
    for sent in 1..=4800 {
        let greatest = parts.iter().rev().find(|part| **part <= sent).unwrap();
        assert_eq!(round_frequency(sent).map(u32::from), Ok(*greatest));
    }
}

// 01: "`00WN,100,21,2200,+007,X4,000` reads back `00QM,100,21,2181,+7,x4,000`"
#[test]
fn a_cell_reads_back_as_it_is_stored() {
    list("s 00WN,100,21,2200,+007,X4,000; s 00QM,100 = 00QM,100,21,2181,+7,x4,000");
}

// 01: "`57,0,-55` reads back `57,0,+0`"
#[test]
fn a_cam_that_is_off_is_stored_with_position_0() {
    reads_back("57,0,-55,000", "57,0,+0,000");
    reads_back("57,1,-55,000", "57,1,-55,000");
}

// 01: "Cell 231: N; 230: Y."
#[test]
fn the_last_cell_is_230() {
    list("s 00WN,231,00,000 = 00N; s 00WN,230,00,000; s 00WN,099,00,000 = 00N; s 00WN,100,00,000");
    list(
        "s 00QM,231 = 00N; s 00QM,230 = 00QM,230,00,000; s 00PS,231 = 00N; s 00PS,099 = 00N; \
         s 00PS,230",
    );
}

// 01: "* Absolute, x1, position +1, target −8388607: error 50; * from 0 it runs."
#[test]
fn an_absolute_shift_beyond_8388607_is_error_50() {
    let to_the_end = "s 00WS,CM,1; s 00WN,100,11,05,-8388607,x1,000";
    list(&format!("{to_the_end}; s 00SA,1; s 00PS,100; M; B = stand:1,0,0; s 00QE = 00QE,50,100"));
    list(&format!("{to_the_end}; s 00PS,100; M; B = run:-,500,0,-8388607,1,0,0"));
}

// 01, near miss: "rounding to the nearest value"
#[test]
fn a_stored_frequency_is_not_rounded_up() {
    reads_back("22,4799,-,x1,000", "22,4571,-,x1,000");
    list("s 00WN,100,22,4799,-,x1,000; s 00PS,100; M; B = run:-,4571,0,+0,1,0,0");
}

// 01, near miss: "refusing x4 when stored, so that a read-back fails after RS changes"
#[test]
fn x4_is_stored_under_any_resolution_and_judged_when_run() {
    list("s 00WS,RS,D0; s 00WN,100,11,05,+3,x4,000; s 00QM,100 = 00QM,100,11,05,+3,x4,000");
    list(
        "s 00WN,100,11,05,+3,x4,000; s 00WS,RS,B1; s 00QM,100 = 00QM,100,11,05,+3,x4,000; \
         s 00WN,100,11,05,+3,x4,000",
    );
    for without in ["D0", "D1", "B0", "B1"] {
        list(&format!(
            "s 00WS,RS,{without}; s 00WN,100,12,05,+,x4,000; s 00PS,100; M; s 00QE = 00QE,51,100"
        ));
    }
    for with in ["D2", "D3", "B2", "B3"] {
        list(&format!(
            "s 00WS,RS,{with}; s 00WN,100,12,05,+,x4,000; s 00PS,100; M; B = run:+,2000,0,+0,1,0,0"
        ));
    }
}

// 01, near miss: "keeping a loop count when idle"
#[test]
fn an_idle_drive_has_no_loop_count() {
    list(
        "s 00WN,100,61,5,000; s 00WN,101,62,100,000; s 00PS,100; W 9 = idle 1; s 00PS,101; \
         W 9 = idle 1; s 00QE = 00QE,52,101",
    );
}

// 01, near miss: "firing the cam on SA"; "SA and 60 never trigger it"
#[test]
fn the_cam_is_fired_by_steps_alone() {
    list("s 00SC,1,+5; s 00SA,5; s 00QC = 00QC,1,+5; s 00QO,O3 = 00QO,O3,0");
    list(
        "s 00SA,7; s 00SC,1,+0; s 00WN,100,60,000; s 00PS,100; M; s 00QA = 00QA,+0; \
         s 00QC = 00QC,1,+0; s 00QO,O3 = 00QO,O3,0",
    );
}

// 01, near miss: "losing the record when a 69 is interrupted"
#[test]
fn a_69_interrupted_while_waiting_leaves_the_record() {
    list(
        "s 00WN,100,65,9,000; s 00WN,101,69; s 00PS,100; M; s 00EE; s 00PS,101; s 00EE; \
         s 00QR = 00QR,100,+9,0",
    );
    list("s 00WN,101,69; s 00PS,101; s 00EE; s 00QR = 00QR,000");
}

// ---- 01, "By operation"

#[test]
fn fresh_refuses_addresses_above_47() {
    list("F 47; s 47QS,AD = 47QS,AD,47; F 48 = !1; s 47QA = 47QA,+0");
    assert_eq!(Drive::fresh(256), Err(1));
    assert_eq!(Drive::fresh(u32::MAX), Err(1));
}

// 01: "Answers fill the front; later bytes keep their content."
#[test]
fn an_answer_fills_the_front_of_the_buffer() {
    let mut drive = Drive::fresh(0).unwrap();
    let mut buffer = [7; 70];
    assert_eq!(drive.string(b"00QA\r", &mut buffer), Ok(Some(8)));
    assert_eq!(&buffer[..8], b"00QA,+0\r");
    assert_eq!(buffer[8..], [7; 62]);
}

// 01: "Every refusal hands back its number, the drive as it came, and untouched buffers."
#[test]
fn a_short_buffer_is_refused_whatever_the_string() {
    for length in [0, 1, 63] {
        for text in ["00SA,5\r", "00QA\r", "05QA\r", "", "00"] {
            let mut drive = Drive::fresh(0).unwrap();
            let mut buffer = vec![9; length];
            assert_eq!(drive.string(text.as_bytes(), &mut buffer), Err(3));
            assert_eq!(buffer, vec![9; length]);
            assert_eq!(drive, Drive::fresh(0).unwrap());
        }
    }
}

#[test]
fn an_inputs_word_above_2047_is_refused() {
    let mut drive = Drive::fresh(0).unwrap();
    assert_eq!(drive.inputs(2048), Err(4));
    assert_eq!(drive.inputs(u32::MAX), Err(4));
    assert_eq!(drive, Drive::fresh(0).unwrap());
    assert_eq!(drive.inputs(2047), Ok(()));
}

// 01: "5, no run under way"; "The last five are a run under way."
#[test]
fn a_step_is_refused_outside_a_run() {
    list("P = !5; s 00WN,100,65,3,000; s 00PS,100; P = !5; M; P = !5; W 9; P = !5");
    list(
        "s 00WN,100,02,10,20,+,x1,000; s 00PS,100; M; P; s 00ES; P; s 00EE; P; H; P = !5; \
         s 00QA = 00QA,+3",
    );
}

// 01: "6, at-speed outside the run or braking of a ramp run, halted outside both slowings"
#[test]
fn at_speed_and_halted_are_refused_outside_their_phases() {
    list("A = !6; H = !6; s 00PS,100; A = !6; H = !6");
    list("s 00WN,100,65,3,000; s 00PS,100; M; A = !6; H = !6");
    list("s 00WN,100,11,05,+3,x1,000; s 00PS,100; M; A = !6; H = !6");
    list("s 00WN,100,22,0005,+,x1,000; s 00PS,100; M; A = !6; H = !6");
    list(
        "s 00WN,100,05,10,20,+,3,x1,000; s 00PS,100; M; H = !6; A; s 00ES; A; H = !6; s 00EE; \
         A = !6; H",
    );
    list("s 00WN,100,32,100,20,+,x1,000; s 00PS,100; M; A; s 00ES; A = !6; H");
    list("i PX; s 00WN,100,03,10,20,+,05,000; s 00PS,100; M; A = !6; H = !6");
}

// 01: "8, budget 0 or above 1,000,000"
#[test]
fn a_wait_refuses_its_budget_at_both_ends() {
    list("W 0 = !8; W 1000001 = !8; W 4294967295 = !8; W 1000000 = idle 0; W 1 = idle 0");
}

// 01: refusal 2 stands first in every operation but fresh and rounding.
#[test]
fn an_unsound_drive_is_refused_before_anything_else() {
    let mut drive = Drive::fresh(0).unwrap();
    drive.cam.position = 1;
    let unsound = drive;
    let mut buffer = [3; 10];
    assert_eq!(drive.string(b"", &mut buffer), Err(2));
    assert_eq!(drive.inputs(2048), Err(2));
    assert_eq!(drive.millisecond(), Err(2));
    assert_eq!(drive.step(), Err(2));
    assert_eq!(drive.at_speed(), Err(2));
    assert_eq!(drive.halted(), Err(2));
    assert_eq!(drive.wait(0), Err(2));
    assert!(matches!(drive.order(), Err(2)));
    assert_eq!((drive, buffer), (unsound, [3; 10]));
}
