//! Points D1 to D16: the inputs word, the start by ST, the free run stop and the emergency stop.

use crate::lists::list;

// D1: "preset 0 ignores ES, preset 1 needs ES off"
#[test]
fn preset_es_decides_whether_input_es_forbids_a_start() {
    list("i ST ES; s 00QA = silent; W 9 = idle 1");
    list("s 00WS,ES,1; i ST ES; s 00QA = 00QA,+0");
    list("s 00WS,ES,1; i ES; i ST; s 00QA = silent");
    list("i ST EE; s 00QA = 00QA,+0");
    list("s 00WS,ES,1; i ST EE; s 00QA = 00QA,+0");
}

// 01: "makes BBB, or 100 + S0 + 2×S1 + 4×S2 + 8×S3, the present cell"
#[test]
fn the_selection_inputs_name_the_cell() {
    for number in 0..16 {
        let names = ["S0", "S1", "S2", "S3"]
            .iter()
            .enumerate()
            .filter(|(place, _)| number >> place & 1 == 1);
        let names: Vec<&str> = names.map(|(_, name)| *name).collect();
        let cell = 100 + number;
        list(
            &format!("i ST {}; s 00EE; s 00QR = 00QR,{cell},+0,0", names.join(" "))
                .replace(" ;", ";"),
        );
    }
}

// 01: "clears the error and makes BBB .. the present cell"
#[test]
fn a_start_clears_the_error() {
    let error = "s 00WN,101,62,100,000; s 00PS,101; M; s 00QE = 00QE,52,101";
    list(&format!("{error}; s 00PS,100; M; s 00QE = 00QE,00,000"));
    list(&format!("{error}; i ST; M; s 00QE = 00QE,00,000"));
    list(&format!(
        "{error}; i EE; s 00PS,100 = 00N; i EE ST; i 0; s 00PS,231 = 00N; s 00QE = 00QE,52,101"
    ));
}

// D2: "A word that ends a program does not start one, and the edge is spent. So is the edge of a
// word with ST and EE both on"
#[test]
fn st_is_judged_on_the_drive_before_the_word() {
    list(
        "s 00WN,100,12,02,+,x1,000; s 00PS,100; M; i ST ES; s 00QA = 00QA,+0; i ST; \
         s 00QA = 00QA,+0; i 0; i ST; s 00QA = silent",
    );
    list(
        "s 00WN,100,12,02,+,x1,000; s 00PS,100; M; i ST EE; s 00QA = 00QA,+0; i ST; \
         s 00QA = 00QA,+0",
    );
    list("i ST EE; s 00QA = 00QA,+0; i ST; s 00QA = 00QA,+0");
    list("i EE; i ST; s 00QA = silent; W 9 = idle 1");
    list("i ST; M; s 00QA = 00QA,+0; i ST I0; s 00QA = 00QA,+0; i 0; i ST; s 00QA = silent");
}

// D4: "level, at every word, changed or not. 05: ES on before at-speed is ignored; after at-speed
// the NEXT word with ES still on brakes; at-speed itself does not look at ES"
#[test]
fn a_delayed_stop_brakes_at_the_first_word_after_at_speed() {
    list(
        "s 00WN,100,05,10,20,+,3,x1,000; s 00PS,100; M; i ES; s 00ES; A; \
         B = run:+,10000,20,+0,1,0,0; \
         i ES I0; B = run:+,10000,20,+3,1,0,0",
    );
}

// 01: "05, only after at-speed, goes on nnn×m steps along s, or 1 if nnn is 0, then passes on; a
// second one is ignored"
#[test]
fn a_delayed_stop_goes_on_its_steps_and_passes_on() {
    list(
        "s 00WN,100,05,10,20,-,3,x1,101; s 00WN,101,58,O0,1,000; s 00PS,100; M; P 4; A; s 00ES; \
         P; s 00ES; i ES; \
         B = run:-,10000,20,-2,1,0,0; P 2; s 00QA = silent; M; s 00QA = 00QA,-7; \
         s 00QO,O0 = 00QO,O0,1",
    );
    list("s 00WN,100,05,10,20,-,3,X4,000; s 00PS,100; M; A; s 00ES; B = run:-,40000,20,-12,1,0,0");
}

// D5: "free run stop at a cell not yet taken: no effect (it is not a run). With the string ES the
// 12 then runs; with input ES on it is passed over when taken."
#[test]
fn a_free_run_stop_before_the_run_has_no_effect() {
    let started = "s 00WN,100,12,02,+,x1,000; s 00PS,100";
    list(&format!("{started}; s 00ES; M; B = run:+,200,0,+0,1,0,0"));
    list(&format!("{started}; i ES; i 0; M; B = run:+,200,0,+0,1,0,0"));
    list(&format!("{started}; i ES; M; s 00QA = 00QA,+0"));
}

// 01: "02, 32, 12, 22 and 05 are passed over while input ES is on"
#[test]
fn free_runs_are_passed_over_while_input_es_is_on() {
    for row in ["02,10,20,+,x1", "32,100,20,+,x1", "12,05,+,x1", "22,0500,+,x1", "05,10,20,+,3,x1"]
    {
        list(&format!("i ES; s 00WN,100,{row},000; s 00PS,100; W 9 = idle 1"));
        list(&format!("s 00WN,100,{row},000; s 00PS,100; W 9 = moving 1"));
    }
    for row in
        ["01,10,20,+1,x1", "31,100,20,+1,x1", "11,05,+1,x1", "21,0500,+1,x1", "03,10,20,+,05"]
    {
        list(&format!("i ES; s 00WN,100,{row},000; s 00PS,100; W 9 = moving 1"));
    }
}

// 01: "12, 22 pass on; 02, 32 slow until halted, then pass on"
#[test]
fn a_free_run_stop_ends_each_free_run_in_its_way() {
    for stop in ["s 00ES", "s 99ES = silent", "i ES"] {
        list(&format!("s 00WN,100,12,05,+,x1,000; s 00PS,100; M; P 2; {stop}; s 00QA = 00QA,+2"));
        list(&format!("s 00WN,100,22,0500,-,x4,000; s 00PS,100; M; P 2; {stop}; s 00QA = 00QA,-2"));
        list(&format!(
            "s 00WN,100,02,10,20,+,x1,000; s 00PS,100; M; P; {stop}; B = slow:1,0,0; P; H; \
             s 00QA = 00QA,+2"
        ));
        list(&format!(
            "s 00WN,100,32,100,20,-,x1,000; s 00PS,100; M; A; {stop}; B = slow:1,0,0; {stop}; \
             H; s 00QA = 00QA,+0"
        ));
    }
}

// D6: "ES does nothing to it in any phase"
#[test]
fn a_zero_search_ignores_the_free_run_stop() {
    list(
        "s 00WN,100,03,10,20,+,05,000; i ES; s 00PS,100; M; B = run:+,10000,20,+0,1,0,0; \
         s 00ES; i ES; \
         B = run:+,10000,20,+0,1,0,0; i ES PX; B = slow:1,0,0; s 00ES; i ES PX; B = slow:1,0,0; H; \
         B = run:-,500,0,+0,1,0,0; s 00ES; i ES PX; B = run:-,500,0,+0,1,0,0; i ES; \
         B = stand:1,0,0; s 00QA = 00QA,+0",
    );
}

// 01: "03: fast along s until PX is on, slow down until halted (both skipped if PX is on when
// taken), then at LL against s until PX is off, then pass on."
#[test]
fn a_zero_search_goes_past_the_switch_and_back() {
    list(
        "s 00WN,100,03,10,20,-,05,101; s 00PS,100; M; P 3; i PX; P 2; i PX I0; B = slow:1,0,0; H; \
         B = run:+,500,0,+0,1,0,0; P 4; i 0; B = stand:1,0,0; s 00QA = silent; M; s 00QA = 00QA,-1",
    );
    list(
        "i PX; s 00WN,100,03,10,20,-,05,000; s 00PS,100; M; B = run:+,500,0,+0,1,0,0; P; i 0; \
         s 00QA = 00QA,+1",
    );
}

// D7: "in one word EE is done first; then ES and PX find idle or emergency slowing and do nothing"
#[test]
fn in_one_word_the_emergency_stop_comes_first() {
    list("s 00WN,100,12,05,+,x1,101; s 00PS,100; M; i EE ES; s 00QR = 00QR,100,+0,0");
    list("s 00WN,100,02,10,20,+,x1,101; s 00PS,100; M; i EE ES; H; s 00QR = 00QR,100,+0,0");
    list(
        "s 00WN,100,03,10,20,+,05,101; s 00PS,100; M; i EE PX; B = slow:1,0,0; H; \
         s 00QR = 00QR,100,+0,0",
    );
}

const STOPS: [&str; 3] = ["s 00EE", "s 99EE = silent", "i EE"];

// D8: "waiting, delay, 11/21/12/22 run, 03 back: idle at once."
#[test]
fn an_emergency_stop_ends_these_phases_at_once() {
    let cases = [
        ("58,O0,1,000", "i I0", "00QR,100,+0,0"),
        ("65,5,000", "M", "00QR,100,+5,0"),
        ("11,05,-3,x4,000", "M; P", "00QR,100,-11,0"),
        ("21,0500,+3,x1,000", "M; P", "00QR,100,+2,0"),
        ("12,05,+,x1,000", "M; P", "00QR,100,+0,0"),
        ("22,0500,+,x1,000", "M; P", "00QR,100,+0,0"),
        ("03,10,20,+,05,000", "i PX; M; P", "00QR,100,+0,0"),
    ];
    for (row, calls, record) in cases {
        for stop in STOPS {
            list(&format!(
                "s 00WN,100,{row}; s 00PS,100; {calls}; {stop}; B = stand:1,0,0; s 00QR = {record}"
            ));
        }
    }
}

// D8: "01/31/02/32/03/05 run, 05 braking, 02/32/03 slowing: emergency slowing, idle at halted."
#[test]
fn an_emergency_stop_slows_these_phases_until_halted() {
    let cases = [
        ("01,10,20,+3,x1,000", "M; P", "00QR,100,+2,0"),
        ("31,100,20,-3,x4,000", "M; A; P", "00QR,100,-11,0"),
        ("02,10,20,+,x1,000", "M; P", "00QR,100,+0,0"),
        ("32,100,20,-,x1,000", "M; A", "00QR,100,+0,0"),
        ("03,10,20,+,05,000", "M; P", "00QR,100,+0,0"),
        ("05,10,20,+,3,x1,000", "M; P", "00QR,000"),
        ("05,10,20,+,3,x1,000", "M; A; s 00ES; P", "00QR,000"),
        ("02,10,20,+,x1,000", "M; s 00ES", "00QR,100,+0,0"),
        ("32,100,20,-,x1,000", "M; s 00ES; P", "00QR,100,+0,0"),
        ("03,10,20,+,05,000", "M; i PX; P", "00QR,100,+0,0"),
    ];
    for (row, calls, record) in cases {
        for stop in STOPS {
            list(&format!(
                "s 00WN,100,{row}; s 00PS,100; {calls}; {stop}; B = slow:1,0,0; H; \
                 B = stand:1,0,0; s 00QR = {record}"
            ));
        }
    }
}

// 01: "the record is cell, rest .., loop count"
#[test]
fn the_record_holds_the_loop_count() {
    list(
        "s 00WN,100,61,7,101; s 00WN,101,65,5,000; s 00PS,100; M 3; s 00EE; s 00QR = 00QR,101,+4,7",
    );
    list(
        "s 00WN,100,61,65535,101; s 00WN,101,01,10,20,+5,x1,000; s 00PS,100; M 2; s 00EE; H; \
         s 00QR = 00QR,101,+5,65535",
    );
}

// D9: "EE in a 02's (03's) ordinary slowing ends the program: it does not pass on at halted"
#[test]
fn an_emergency_stop_while_slowing_ends_the_program() {
    list("s 00WN,100,02,10,20,+,x1,101; s 00PS,100; M; s 00ES; s 00EE; H; s 00QR = 00QR,100,+0,0");
    list("s 00WN,100,03,10,20,+,05,101; s 00PS,100; M; i PX; s 00EE; H; s 00QR = 00QR,100,+0,0");
}

// D10: "EE in braking keeps the rest: idle with the step that makes it 0, or at halted; record
// empty both ways"
#[test]
fn an_emergency_stop_while_braking_keeps_the_rest() {
    let braking =
        "s 00WN,100,05,10,20,+,3,x1,101; s 00PS,100; M; A; s 00ES; P; s 00EE; B = slow:1,0,0";
    list(&format!("{braking}; P 2; s 00QR = 00QR,000; s 00QA = 00QA,+3"));
    list(&format!("{braking}; P; H; s 00QR = 00QR,000; s 00QA = 00QA,+2"));
}

// D11: "the program does not pass on to DDD; the loop count is gone"
#[test]
fn a_rest_that_reaches_0_while_slowing_ends_the_program() {
    list(
        "s 00WN,150,65,9,000; s 00PS,150; M; s 00EE; s 00QR = 00QR,150,+9,0; \
         s 00WN,100,01,10,20,+3,x1,101; \
         s 00WN,101,58,O0,1,000; s 00PS,100; M; P; s 00EE; P 2; s 00QA = 00QA,+3; \
         s 00QR = 00QR,000; W 9 = idle 0; s 00QO,O0 = 00QO,O0,0",
    );
    list(
        "s 00WN,100,61,5,101; s 00WN,101,01,10,20,-1,x1,000; s 00WN,102,62,100,000; s 00PS,100; \
         M 2; s 00EE; P; \
         s 00PS,102; M; s 00QE = 00QE,52,102",
    );
}

// 01: "While slowing for it, further EE, ES and PX do nothing."
#[test]
fn an_emergency_slowing_hears_no_further_stop() {
    for row in ["01,10,20,+3,x1", "02,10,20,+,x1", "03,10,20,+,05", "05,10,20,+,3,x1"] {
        let slowing = format!("s 00WN,100,{row},101; s 00PS,100; M; A; s 00EE; B = slow:1,0,0");
        for stop in ["s 00EE", "s 00ES", "i EE", "i ES", "i PX", "i ES PX EE", "i 0"] {
            list(&format!("{slowing}; {stop}; B = slow:1,0,0; H; s 00QA = 00QA,+0"));
        }
    }
}

// D12: "`x4 check` first: then ES pass-over / shift 0 / error 50"
#[test]
fn error_51_is_judged_before_all_else() {
    list("s 00WS,RS,D0; s 00WN,100,11,05,+0,x4,000; s 00PS,100; M; s 00QE = 00QE,51,100");
    list("s 00WS,RS,D0; s 00WN,100,12,05,+,x4,000; i ES; s 00PS,100; M; s 00QE = 00QE,51,100");
    list(
        "s 00WS,RS,D0; s 00WS,CM,1; s 00SA,90000000; s 00WN,100,11,05,+0,x4,000; s 00PS,100; M; \
         s 00QE = 00QE,51,100",
    );
}

// D13: "1 step, also for x4"
#[test]
fn a_delayed_stop_of_0_steps_makes_one() {
    list(
        "s 00WN,100,05,10,20,+,0,x1,000; s 00PS,100; M; A; s 00ES; B = run:+,10000,20,+1,1,0,0; \
         P; s 00QA = 00QA,+1",
    );
    list(
        "s 00WN,100,05,10,20,-,0,x4,000; s 00PS,100; M; A; s 00ES; B = run:-,40000,20,-1,1,0,0; \
         P; s 00QA = 00QA,-1",
    );
}

// D14: "a second at-speed is accepted (also in braking) and changes nothing; at-speed in a slowing,
// back, or a run without ramp: refusal 6"
#[test]
fn a_second_at_speed_changes_nothing() {
    let once = list("s 00WN,100,05,10,20,+,3,x1,000; s 00PS,100; M; A");
    assert_eq!(list("s 00WN,100,05,10,20,+,3,x1,000; s 00PS,100; M; A 3"), once);
    let braking = list("s 00WN,100,05,10,20,+,3,x1,000; s 00PS,100; M; A; s 00ES");
    assert_eq!(list("s 00WN,100,05,10,20,+,3,x1,000; s 00PS,100; M; A; s 00ES; A 2"), braking);
}

// 01: "passing on, entering back or becoming idle clears it": a 05 after a 05 needs its own
// at-speed.
#[test]
fn the_next_run_starts_without_the_mark() {
    list(
        "s 00WN,100,05,10,20,+,1,x1,101; s 00WN,101,05,10,20,+,1,x1,000; s 00PS,100; M; A; \
         s 00ES; P; M; s 00ES; \
         B = run:+,10000,20,+0,1,0,0; A; s 00ES; B = run:+,10000,20,+1,1,0,0",
    );
}

// D15: "halted of a 03's slowing with PX off: back is over as it begins, the halted event passes
// on"
#[test]
fn a_zero_search_that_halts_with_px_off_goes_on_at_once() {
    list(
        "s 00WN,100,03,10,20,+,05,000; s 00PS,100; M; i PX; i 0; B = slow:1,0,0; H; \
         B = stand:1,0,0; s 00QA = 00QA,+0",
    );
}

// D16: "PX is judged by its level. PX on in the word for a 03 in back: stays; for 03 in emergency
// slowing: nothing"
#[test]
fn back_lasts_as_long_as_px_is_on() {
    let back = "i PX; s 00WN,100,03,10,20,+,05,000; s 00PS,100; M; B = run:-,500,0,+0,1,0,0";
    list(&format!("{back}; i PX; i PX I1; B = run:-,500,0,+0,1,0,0; i I1; B = stand:1,0,0"));
    list(
        "s 00WN,100,03,10,20,+,05,101; s 00PS,100; M; s 00EE; i PX; i 0; B = slow:1,0,0; H; \
         s 00QR = 00QR,100,+0,0",
    );
}
