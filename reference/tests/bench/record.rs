//! Points B1 to B6 and C1 to C7: the memory, the interrupted record, and the 69 that resumes it.

use crate::lists::{go_on, list};
use reference::instruction::{Cell, Instruction};
use reference::memory::{Drive, Remaining, Suspended};

// B1: "content = the whole stored instruction (after rounding, x/X, zeros, 57,0 -> +0), with DDD"
#[test]
fn only_changed_content_empties_the_record() {
    let interrupted = "s 00WN,100,65,9,000; s 00PS,100; M; s 00EE; s 00QR = 00QR,100,+9,0";
    list(&format!("{interrupted}; s 00WN,100,65,0009,000; s 00QR = 00QR,100,+9,0"));
    list(&format!("{interrupted}; s 00WN,100,65,9,100; s 00QR = 00QR,000"));
    list(&format!("{interrupted}; s 00WN,100,65,8,000; s 00QR = 00QR,000"));
    list(&format!("{interrupted}; s 00WN,100,69; s 00QR = 00QR,000"));
    list(&format!("{interrupted}; s 00WN,101,65,8,000; s 00QR = 00QR,100,+9,0"));
    list(&format!("{interrupted}; s 00WN,100,65,8388608,000 = 00N; s 00QR = 00QR,100,+9,0"));
    let run = "s 00WN,100,21,2200,+7,x4,000; s 00PS,100; M; P; s 00EE; s 00QR = 00QR,100,+27,0";
    list(&format!("{run}; s 00WN,100,21,2199,+007,X4,000; s 00QR = 00QR,100,+27,0"));
    list(&format!("{run}; s 00WN,100,21,2200,+7,x1,000; s 00QR = 00QR,000"));
    list(
        "s 00WN,100,57,0,+8,000; s 00PS,100; s 00EE; s 00WN,100,57,0,-3,000; \
         s 00QR = 00QR,100,+0,0",
    );
}

// B2: "PS/ST do not touch the record; nor does a program's normal end, an error, SA, WS."
#[test]
fn the_record_outlives_other_programs() {
    let interrupted = "s 00WN,100,65,9,000; s 00PS,100; M; s 00EE";
    list(&format!("{interrupted}; s 00PS,101; W 9 = idle 1; s 00QR = 00QR,100,+9,0"));
    list(&format!("{interrupted}; i ST S0; W 9 = idle 1; s 00QR = 00QR,100,+9,0"));
    list(&format!(
        "{interrupted}; s 00WN,101,62,100,000; s 00PS,101; W 9; s 00QE = 00QE,52,101; \
         s 00QR = 00QR,100,+9,0"
    ));
    list(&format!(
        "{interrupted}; s 00SA,5; s 00WS,CM,1; s 00WS,RS,D0; s 00WS,AD,5; s 05QR = 05QR,100,+9,0"
    ));
}

// B3: "PS then EE before any millisecond writes (cell,0,0) over an older record"
#[test]
fn a_cell_not_yet_taken_is_recorded_with_rest_0() {
    let older = "s 00WN,100,65,9,000; s 00PS,100; M; s 00EE; s 00QR = 00QR,100,+9,0";
    for row in [
        "58,O0,1,000",
        "00,000",
        "01,10,20,+5,x1,000",
        "03,10,20,+,05,000",
        "65,7,000",
        "62,100,000",
    ] {
        list(&format!(
            "{older}; s 00WN,150,{row}; s 00PS,150; s 00EE; s 00QR = 00QR,150,+0,0; \
             s 00QO,O0 = 00QO,O0,0"
        ));
    }
    list(&format!("{older}; s 00WN,150,69; s 00PS,150; s 00EE; s 00QR = 00QR,100,+9,0"));
}

// B4: "the rest is that at the halt, since rest loses one at each step"
#[test]
fn steps_while_slowing_count() {
    list(
        "s 00WN,100,01,10,20,+5,x1,000; s 00PS,100; M; s 00EE; P 2; H; s 00QR = 00QR,100,+3,0; \
         s 00QA = 00QA,+2",
    );
}

// B5: "an older record is emptied too, not left. Under way = run, braking (and their emergency
// slowing)."
#[test]
fn a_delayed_stop_under_way_leaves_no_record() {
    let older = "s 00WN,150,65,9,000; s 00PS,150; M; s 00EE; s 00QR = 00QR,150,+9,0; \
                 s 00WN,100,05,10,20,+,3,x1,000; s 00PS,100";
    list(&format!("{older}; M; s 00EE; H; s 00QR = 00QR,000"));
    list(&format!("{older}; M; A; s 00ES; s 00EE; P; H; s 00QR = 00QR,000"));
    list(&format!("{older}; M; A; s 00ES; s 00EE; P 3; s 00QR = 00QR,000"));
    list(&format!("{older}; s 00EE; s 00QR = 00QR,100,+0,0"));
    list(
        "s 00WN,100,61,4,101; s 00WN,101,05,10,20,+,3,x1,000; s 00PS,100; M; s 00EE; \
         s 00QR = 00QR,101,+0,4",
    );
}

// B6: "resumed run interrupted again: ordinary rule, record = the run's own cell and what is left,
// never the 69"
#[test]
fn a_resumed_run_is_recorded_by_its_own_cell() {
    let run = "s 00WN,100,11,05,-9,x1,000; s 00WN,101,69; s 00PS,100; M; P 2; s 00EE; \
               s 00QR = 00QR,100,-7,0";
    list(&format!(
        "{run}; s 00PS,101; M; P 3; s 00EE; s 00QR = 00QR,100,-4,0; s 00PS,101; M; P 4; \
         s 00QR = 00QR,000; s 00QA = 00QA,-9"
    ));
    list(
        "s 00WN,100,65,9,000; s 00WN,101,69; s 00PS,100; M 3; s 00EE; s 00PS,101; M 2; s 00EE; \
         s 00QR = 00QR,100,+6,0",
    );
}

// C1: "also the anew case happens in that millisecond: a 58 in the record acts at once"
#[test]
fn a_cell_not_yet_taken_acts_in_the_millisecond_of_the_69() {
    list(
        "s 00WN,100,58,O0,1,000; s 00WN,101,69; s 00PS,100; s 00EE; s 00PS,101; W 9 = idle 1; \
         s 00QO,O0 = 00QO,O0,1",
    );
    list(
        "s 00WN,100,11,05,+3,x1,000; s 00WN,101,69; s 00PS,100; M; P; s 00EE; s 00PS,101; M; \
         B = run:+,500,0,+2,1,0,0",
    );
}

// C2: "the error notes the RECORD's cell and the record is gone"
#[test]
fn error_51_on_resuming_notes_the_cell_of_the_record() {
    list(
        "s 00WN,100,11,05,+3,x4,000; s 00WN,101,69; s 00PS,100; M; P; s 00EE; s 00WS,RS,D0; \
         s 00PS,101; M; \
         s 00QE = 00QE,51,100; s 00QR = 00QR,000",
    );
}

// C3: "50 not: for rest != 0 only"
#[test]
fn error_50_is_not_judged_again_on_resuming() {
    let absolute = "s 00WS,CM,1; s 00WN,100,11,05,+10,x1,000; s 00WN,101,69; s 00PS,100";
    list(&format!(
        "{absolute}; M; P; s 00EE; s 00SA,9000000; s 00PS,101; M; P 9; s 00QA = 00QA,+9000009; \
         s 00QE = 00QE,00,000"
    ));
    list(&format!(
        "{absolute}; s 00EE; s 00SA,9000000; s 00PS,101; M; s 00QE = 00QE,50,100; \
         s 00QR = 00QR,000"
    ));
}

// C3: "Rest 0 (cell not yet taken) is taken anew with everything: shift from the present position,
// 50, ES pass-over, PX look, 52."
#[test]
fn a_record_without_rest_is_taken_anew() {
    let taken_anew = "s 00WN,101,69; s 00PS,101; M";
    list(&format!(
        "s 00WS,CM,1; s 00WN,100,11,05,+10,x1,000; s 00PS,100; s 00EE; s 00SA,7; {taken_anew}; \
         B = run:+,500,0,+3,1,0,0"
    ));
    list(&format!(
        "s 00WN,100,12,05,+,x1,000; s 00PS,100; M; P 2; s 00EE; {taken_anew}; \
         B = run:+,500,0,+0,1,0,0"
    ));
    list(&format!(
        "s 00WN,100,12,05,+,x1,000; s 00PS,100; M; s 00EE; i ES; {taken_anew}; s 00QR = 00QR,000"
    ));
    list(&format!(
        "s 00WN,100,03,10,20,+,05,000; s 00PS,100; M; s 00EE; H; i PX; {taken_anew}; \
         B = run:-,500,0,+0,1,0,0"
    ));
    list(&format!(
        "s 00WN,100,62,100,000; s 00PS,100; s 00EE; {taken_anew}; s 00QE = 00QE,52,100; \
         s 00QR = 00QR,000"
    ));
}

// C4: "a record whose cell holds a 69 is sound by the words but not reachable. Chosen: taken anew,
// finds the record empty, ends the program."
#[test]
fn a_69_that_resumes_a_69_ends_the_program() {
    let mut drive = Drive::fresh(0).unwrap();
    drive.cells[0] = Cell { instruction: Instruction::Recovery, next: 0 };
    drive.suspended = Suspended { cell: 100, remaining: Remaining::Nothing, loop_count: 7 };
    assert!(drive.sound());
    go_on(
        &mut drive,
        "s 00QR = 00QR,100,+0,7; s 00PS,100; W 9 = idle 1; s 00QR = 00QR,000; s 00QE = 00QE,00,000",
    );
}

// C5: "rest r gives r later milliseconds (same as a 65 of r)"
#[test]
fn a_resumed_delay_lasts_its_rest() {
    list(
        "s 00WN,100,65,10,000; s 00WN,101,69; s 00PS,100; M 4; s 00EE; s 00QR = 00QR,100,+7,0; \
         s 00PS,101; \
         W 100 = idle 8; s 00QR = 00QR,000",
    );
}

// C6: "empty record: idle, no error"
#[test]
fn a_69_without_a_record_ends_the_program() {
    list("s 00WN,101,69; s 00PS,101; W 5 = idle 1; s 00QE = 00QE,00,000; s 00QR = 00QR,000");
}

// C7: "the record's count replaces the one of the program that holds the 69, also by 0, also when
// the cell is taken anew, before the cell acts"
#[test]
fn a_69_restores_the_loop_count_of_the_record() {
    list(
        "s 00WN,100,65,9,103; s 00WN,103,62,103,000; s 00WN,101,61,5,102; s 00WN,102,69; \
         s 00PS,100; M; s 00EE; \
         s 00PS,101; W 100; s 00QE = 00QE,52,103",
    );
    list(
        "s 00WN,100,61,2,101; s 00WN,101,62,102,103; s 00WN,102,58,O0,1,000; \
         s 00WN,103,58,O1,1,000; s 00WN,110,69; \
         s 00PS,100; M; s 00EE; s 00QR = 00QR,101,+0,2; s 00PS,110; W 9 = idle 2; \
         s 00QO,O0 = 00QO,O0,1",
    );
}
