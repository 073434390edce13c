//! Points E1 to E7 and F1 to F7: milliseconds, delays, waits, runs, the cam and the orders to the
//! board.

use crate::lists::list;
use reference::memory::Drive;

// E1: "the taking millisecond is not counted; the nnn-th later one brings the rest to 0 and passes
// on, and DDD is taken by the NEXT millisecond"
#[test]
fn a_delay_of_n_takes_n_milliseconds_after_its_own() {
    for delay in [1, 2, 5, 65_535, 65_536] {
        list(&format!("s 00WN,100,65,{delay},000; s 00PS,100; W 100000 = idle {}", delay + 1));
    }
    let then_output = "s 00WN,100,65,2,101; s 00WN,101,58,FC,1,000; s 00PS,100";
    list(&format!(
        "{then_output}; M 3; B = stand:1,0,0; s 00QA = silent; M; B = stand:1,0,1; \
         s 00QA = 00QA,+0"
    ));
}

// 01: "65: a delay of nnn later milliseconds; 0 passes on."
#[test]
fn a_delay_of_0_passes_on() {
    list("s 00WN,100,65,0,000; s 00PS,100; W 9 = idle 1");
    list("s 00WN,100,65,0,101; s 00WN,101,65,0,000; s 00PS,100; W 9 = idle 2");
}

// E2: "one cell per millisecond; passing on (also shift 0, 65 of 0, ES pass-over, 63, 62) only
// names the next cell"
#[test]
fn a_millisecond_takes_one_cell() {
    for row in [
        "00",
        "57,0,+0",
        "58,O0,0",
        "60",
        "61,3",
        "63,I0,1,150",
        "65,0",
        "70,0",
        "11,05,+0,x1",
        "31,100,20,-0,x4",
    ] {
        list(&format!(
            "s 00WN,100,{row},101; s 00WN,101,58,FC,1,000; s 00PS,100; M; B = stand:1,0,0; M; \
             B = stand:1,0,1"
        ));
    }
    list(
        "i ES; s 00WN,100,12,05,+,x1,101; s 00WN,101,58,FC,1,000; s 00PS,100; M; \
         B = stand:1,0,0; M; B = stand:1,0,1",
    );
    list(
        "s 00WN,100,61,1,101; s 00WN,101,62,101,102; s 00WN,102,58,FC,1,000; s 00PS,100; M 2; \
         B = stand:1,0,0; M; B = stand:1,0,1",
    );
}

// 01: "62: count 0 is error 52; else one less, then DDD at 0, EEE otherwise."; E5: "62 at count 1:
// count 0, DDD"
#[test]
fn a_loop_repeats_its_count() {
    for count in [1, 2, 7] {
        let looped = format!(
            "s 00WN,100,61,{count},101; s 00WN,101,11,05,+1,x1,102; s 00WN,102,62,101,000; \
             s 00PS,100; M"
        );
        let rounds = "; M; P; M".repeat(count);
        list(&format!("{looped}{rounds}; s 00QA = 00QA,+{count}"));
    }
    list("s 00WN,100,62,101,000; s 00PS,100; M; s 00QE = 00QE,52,100; s 00QA = 00QA,+0");
}

// E3: "at n = budget idle and moving are still judged before spent; a wait on an idle drive: idle
// 0; on a moving one (also slowings, back): moving 0"
#[test]
fn a_wait_judges_idle_and_moving_before_its_budget() {
    list("W 5 = idle 0; s 00PS,100; W 1 = idle 1; W 1 = idle 0");
    list(
        "s 00WN,100,12,05,+,x1,000; s 00PS,100; W 1 = moving 1; W 1 = moving 0; \
         W 1000000 = moving 0",
    );
    list(
        "s 00WN,100,02,10,20,+,x1,000; s 00PS,100; M; s 00ES; W 3 = moving 0; s 00EE; \
         W 3 = moving 0; H; W 3 = idle 0",
    );
    list("i PX; s 00WN,100,03,10,20,+,05,000; s 00PS,100; M; W 3 = moving 0");
    list("s 00WN,100,65,5,000; s 00PS,100; W 1 = spent 1; W 4 = spent 4; W 4 = idle 1");
    list("s 00WN,100,00,100; s 00PS,100; W 1000 = spent 1000; s 00EE; s 00QR = 00QR,100,+0,0");
}

// E4: "milliseconds change nothing in a run, a slowing, and on an idle drive"
#[test]
fn milliseconds_change_nothing_outside_waiting_and_delay() {
    assert_eq!(list("M 50"), Drive::fresh(0).unwrap());
    let runs = [
        "s 00WN,100,01,10,20,+5,x1,000; s 00PS,100; M; P",
        "s 00WN,100,02,10,20,+,x1,000; s 00PS,100; M; s 00ES",
        "s 00WN,100,02,10,20,+,x1,000; s 00PS,100; M; s 00EE",
        "s 00WN,100,05,10,20,+,3,x1,000; s 00PS,100; M; A; s 00ES",
        "i PX; s 00WN,100,03,10,20,+,05,000; s 00PS,100; M",
    ];
    for run in runs {
        assert_eq!(list(&format!("{run}; M 50")), list(run));
    }
}

// E6: "PS,100 on a fresh drive is Y, busy, one millisecond, idle; EE in between records (100,0,0)"
#[test]
fn a_null_cell_is_a_cell_like_any_other() {
    list("s 00PS,100; s 00QA = silent; M; s 00QA = 00QA,+0; s 00QR = 00QR,000");
    list("s 00PS,100; s 00EE; s 00QR = 00QR,100,+0,0");
}

// E7: "`Next 000 ends: idle` in whatever event passes on: millisecond, step, halted, string ES,
// inputs word (ES, PX)"
#[test]
fn a_program_ends_in_the_event_that_passes_on() {
    let ends = [
        "s 00PS,100; M",
        "s 00WN,100,11,05,+1,x1,000; s 00PS,100; M; P",
        "s 00WN,100,02,10,20,+,x1,000; s 00PS,100; M; s 00ES; H",
        "s 00WN,100,12,05,+,x1,000; s 00PS,100; M; s 00ES",
        "s 00WN,100,12,05,+,x1,000; s 00PS,100; M; i ES",
        "i PX; s 00WN,100,03,10,20,+,05,000; s 00PS,100; M; i 0",
    ];
    for calls in ends {
        list(&format!("{calls}; W 9 = idle 0; s 00QE = 00QE,00,000"));
    }
}

// 01: "Indexed: shift = n×m"; "Shift 0 passes on." 02, Slip 4: "Relative runs .. still multiply."
#[test]
fn relative_shifts_are_multiplied_and_do_not_depend_on_the_position() {
    for position in ["0", "2147483647", "-2147483648"] {
        for (fields, speed) in [
            ("01,10,20", "40000,20"),
            ("31,100,20", "40000,20"),
            ("11,05", "2000,0"),
            ("21,2200", "8724,0"),
        ] {
            list(&format!(
                "s 00SA,{position}; s 00WN,100,{fields},-8388607,x4,000; s 00PS,100; M; \
                 B = run:-,{speed},-33554428,1,0,0"
            ));
        }
    }
    list("s 00WN,100,11,05,+0,x4,000; s 00PS,100; W 9 = idle 1");
}

// F2: "a step is always one position, also with x4"
#[test]
fn a_step_is_one_position_under_x4() {
    list(
        "s 00WN,100,11,05,-3,x4,000; s 00PS,100; M; P; B = run:-,2000,0,-11,1,0,0; P 11; \
         s 00QA = 00QA,-12",
    );
}

// F3: "indexed: sign of the rest (also in emergency slowing); back: against s; all else along s"
#[test]
fn steps_go_in_the_direction_of_the_run() {
    list("s 00WN,100,01,10,20,-5,x1,000; s 00PS,100; M; P; s 00EE; P; H; s 00QA = 00QA,-2");
    list(
        "s 00WN,100,02,10,20,-,x1,000; s 00PS,100; M; P; s 00ES; P; s 00EE; P; H; s 00QA = 00QA,-3",
    );
    list(
        "s 00WN,100,05,10,20,-,9,x1,000; s 00PS,100; M; P; A; s 00ES; P; s 00EE; P; H; \
         s 00QA = 00QA,-3",
    );
    list(
        "s 00WN,100,03,10,20,-,05,000; s 00PS,100; M; P; i PX; P; H; P 3; s 00EE; s 00QA = 00QA,+1",
    );
}

// F4: "stand (idle, waiting, delay) and slow carry only IN, CU, FC; run carries direction, Hz x m,
// ramp, rest"
#[test]
fn the_order_shows_frequency_ramp_and_rest() {
    let orders = [
        ("01,24,42,+5,x4", "run:+,96000,42,+20,1,0,0"),
        ("31,030,10,-5,x1", "run:-,3000,10,-5,1,0,0"),
        ("31,240,10,-5,x4", "run:-,96000,10,-20,1,0,0"),
        ("02,03,11,-,x1", "run:-,3000,11,+0,1,0,0"),
        ("32,101,12,+,x4", "run:+,40400,12,+0,1,0,0"),
        ("11,30,+1,x4", "run:+,12000,0,+4,1,0,0"),
        ("21,4799,-1,x4", "run:-,18284,0,-4,1,0,0"),
        ("12,02,+,x1", "run:+,200,0,+0,1,0,0"),
        ("22,0001,-,x4", "run:-,4,0,+0,1,0,0"),
        ("03,09,33,-,02", "run:-,9000,33,+0,1,0,0"),
        ("05,09,33,-,7,x4", "run:-,36000,33,+0,1,0,0"),
    ];
    for (row, order) in orders {
        list(&format!(
            "s 00WN,100,{row},000; B = stand:1,0,0; s 00PS,100; B = stand:1,0,0; M; B = {order}"
        ));
    }
}

// 01: "always with IN, CU and FC"
#[test]
fn the_order_carries_current_and_full_current() {
    let set = "s 00WS,IN,3; s 00SO,FC,1; s 00WN,101,70,1,000; s 00PS,101; M; B = stand:3,1,1";
    list(&format!(
        "{set}; s 00WN,100,02,10,20,+,x1,000; s 00PS,100; M; B = run:+,10000,20,+0,3,1,1; \
         s 00ES; B = slow:3,1,1"
    ));
    list(
        "s 00WN,100,65,5,000; s 00PS,100; M; B = stand:1,0,0; s 00EE; s 00WS,IN,0; B = stand:0,0,0",
    );
}

// F5: "cam fires on any step (also slowing, back, the last one), before passing on"
#[test]
fn the_cam_fires_on_any_step() {
    let fired = "s 00QO,O3 = 00QO,O3,1; s 00QC = 00QC,0";
    list(&format!("s 00SC,1,+2; s 00WN,100,11,05,+2,x1,000; s 00PS,100; M; P 2; {fired}"));
    list(&format!(
        "s 00SC,1,-2; s 00WN,100,02,10,20,-,x1,000; s 00PS,100; M; P; s 00ES; P; H; {fired}"
    ));
    list(&format!(
        "s 00SC,1,+2; s 00WN,100,01,10,20,+9,x1,000; s 00PS,100; M; P; s 00EE; P; H; {fired}"
    ));
    list(&format!(
        "s 00SC,1,-1; i PX; s 00WN,100,03,10,20,+,05,000; s 00PS,100; M; P; i 0; {fired}"
    ));
    list(&format!(
        "s 00SC,1,+1; s 00WN,100,05,10,20,+,1,x1,000; s 00PS,100; M; A; s 00ES; P; {fired}"
    ));
    list(
        "s 00SO,O3,1; s 00SC,1,+1; s 00WN,100,11,05,+1,x1,000; s 00PS,100; M; P; \
         s 00QO,O3 = 00QO,O3,0",
    );
}

// F5: "SC/57 set at the present position do not fire; 57 with V 0 unsets"
#[test]
fn setting_the_cam_does_not_fire_it() {
    list("s 00SC,1,+0; s 00QO,O3 = 00QO,O3,0; s 00QC = 00QC,1,+0");
    list("s 00WN,100,57,1,+0,000; s 00PS,100; M; s 00QO,O3 = 00QO,O3,0; s 00QC = 00QC,1,+0");
    list("s 00SC,1,+9; s 00WN,100,57,0,+4,000; s 00PS,100; M; s 00QC = 00QC,0");
    list(
        "s 00SC,1,+1; s 00WN,100,11,05,+3,x1,101; s 00WN,101,11,05,-3,x1,000; s 00PS,100; M; \
         P 3; M; P 3; s 00QO,O3 = 00QO,O3,1",
    );
}

// F6: "an error leaves position, outputs, cam and record alone"
#[test]
fn an_error_changes_nothing_else() {
    let before = "s 00WN,150,65,9,000; s 00PS,150; M; s 00EE; s 00SA,9000000; s 00SO,O3,1; \
                  s 00SC,1,+7; s 00WS,CM,1; s 00WN,100,11,05,+0,x1,000";
    let mut failed = list(&format!("{before}; s 00PS,100; M; s 00QE = 00QE,50,100"));
    failed.fault = list(before).fault;
    assert_eq!(failed, list(before));
}

// F7: "a step past either end of 32 bits; the rest is not touched by it; the cam compares the
// wrapped position"
#[test]
fn the_position_wraps_at_both_ends() {
    list(
        "s 00SA,2147483646; s 00SC,1,-2147483648; s 00WN,100,11,05,+5,x1,000; s 00PS,100; M; P 2; \
         B = run:+,500,0,+3,1,0,0; P 3; s 00QA = 00QA,-2147483645; s 00QO,O3 = 00QO,O3,1; \
         s 00QC = 00QC,0",
    );
    list(
        "s 00SA,-2147483647; s 00SC,1,+2147483647; s 00WN,100,22,0500,-,x1,000; s 00PS,100; M; \
         P 3; s 00ES; \
         s 00QA = 00QA,+2147483646; s 00QO,O3 = 00QO,O3,1",
    );
}

// 01: "60 (position 0), 70 (CU)"
#[test]
fn counter_reset_and_current_act_in_their_millisecond() {
    list("s 00SA,-77; s 00WN,100,60,000; s 00PS,100; M; s 00QA = 00QA,+0");
    list(
        "s 00WN,100,70,1,101; s 00WN,101,70,0,000; s 00PS,100; M; B = stand:1,1,0; M; \
         B = stand:1,0,0",
    );
}
