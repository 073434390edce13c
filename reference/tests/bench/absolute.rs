//! 02, Slip 4, points 4.1 to 4.5: in absolute mode n is the place, also with x4.

use crate::lists::{go_on, list};

/// Fields before n of each indexed run, the order's Hz at x1, and its ramp.
const INDEXED: [(&str, u32, u8); 4] =
    [("01,20,30", 20_000, 30), ("31,091,15", 9_100, 15), ("11,05", 500, 0), ("21,2200", 2_181, 0)];

const MULTIPLIERS: [(&str, u32); 2] = [("x1", 1), ("x4", 4)];

/// One absolute run of every code and multiplier from a position to n.
fn every_run(position: i64, n: i64, mut check: impl FnMut(&str, u32, u8)) {
    for (fields, hertz, ramp) in INDEXED {
        for (multiplier, m) in MULTIPLIERS {
            let cell = format!("s 00WN,100,{fields},{n:+},{multiplier},000");
            check(&format!("s 00WS,CM,1; s 00SA,{position}; {cell}; s 00PS,100"), hertz * m, ramp);
        }
    }
}

// 02: "In absolute mode n is the target itself for x1 and x4; only the frequency is multiplied."
// 4.5: "the order shows Hz x 4 and the rest n - position"
#[test]
fn the_number_is_the_place_for_x1_and_x4() {
    for (position, n) in [(0, 5), (4, 5), (5, 4), (7, -2), (-9, 0), (3, -3)] {
        every_run(position, n, |start, hertz, ramp| {
            let (shift, sign) = (n - position, if n > position { '+' } else { '-' });
            let run = format!("run:{sign},{hertz},{ramp},{shift:+},1,0,0");
            list(&format!("{start}; M; B = {run}; P {}; s 00QA = 00QA,{n:+}", shift.abs()));
        });
    }
}

// "Users .. change a cell to x4 to go faster and find the axis four times as far out."
#[test]
fn a_cell_changed_to_x4_leads_to_the_same_place() {
    let start = "s 00PS,100; W 9 = moving 1";
    let mut drive = list(&format!("s 00WS,CM,1; s 00WN,100,11,05,+6,x1,000; {start}; P 6"));
    go_on(&mut drive, &format!("s 00SA,0; s 00WN,100,11,05,+6,x4,000; {start}; P 6"));
    go_on(&mut drive, "s 00QA = 00QA,+6; s 00PS,100; W 9 = idle 1; s 00QA = 00QA,+6");
}

// 02: "A shift beyond 8,388,607 either way gives error 50 in both."
#[test]
fn a_shift_of_8388607_runs_and_one_more_is_error_50() {
    for n in [8_388_607_i64, -8_388_607] {
        let sign = if n > 0 { '+' } else { '-' };
        every_run(0, n, |start, hertz, ramp| {
            list(&format!("{start}; M; B = run:{sign},{hertz},{ramp},{n:+},1,0,0"));
        });
        every_run(-n.signum(), n, |start, _, _| {
            list(&format!("{start}; M; B = stand:1,0,0; s 00QE = 00QE,50,100"));
        });
        every_run(2 * n, n, |start, hertz, ramp| {
            let back = if n > 0 { '-' } else { '+' };
            list(&format!("{start}; M; B = run:{back},{hertz},{ramp},{:+},1,0,0", -n));
        });
        every_run(2 * n + n.signum(), n, |start, _, _| {
            list(&format!("{start}; M; s 00QE = 00QE,50,100; s 00QR = 00QR,000"));
        });
    }
}

// Where 01 let an x4 run go.
#[test]
fn a_target_four_times_as_far_is_error_50() {
    for position in [-33_554_428, -25_165_821, 25_165_821, 33_554_428] {
        every_run(position, 0, |start, _, _| {
            list(&format!("{start}; M; s 00QE = 00QE,50,100; s 00QA = 00QA,{position:+}"));
        });
    }
}

// 4.1: "shift = n - position as true integers (position may be 32 bits out; no wrap into range)"
#[test]
fn a_shift_beyond_32_bits_is_error_50() {
    for position in [i64::from(i32::MIN), i64::from(i32::MAX)] {
        for n in [8_388_607, -8_388_607, 0] {
            every_run(position, n, |start, _, _| {
                list(&format!("{start}; M; s 00QE = 00QE,50,100; s 00QA = 00QA,{position:+}"));
            });
        }
    }
}

// 4.2: "order of checks unchanged: 51 (x4 with RS), then 50, then shift 0 passes on"
#[test]
fn error_51_comes_first_then_50_then_a_shift_of_0() {
    for (position, multiplier, seen) in [
        (9_000_000, "x4", "51,100"),
        (0, "x4", "51,100"),
        (9_000_000, "x1", "50,100"),
        (0, "x1", "00,000"),
    ] {
        list(&format!(
            "s 00WS,CM,1; s 00WS,RS,D1; s 00SA,{position}; s 00WN,100,11,05,+0,{multiplier},000; \
             s 00PS,100; W 9 = idle 1; s 00QE = 00QE,{seen}"
        ));
    }
    every_run(20, 20, |start, _, _| {
        list(&format!("{start}; W 9 = idle 1; s 00QE = 00QE,00,000; s 00QA = 00QA,+20"));
    });
}

// 4.4: "a resumed rest is a shift in both modes, 50 not judged"; 4.3: rests to 33,554,428 stay
#[test]
fn a_rest_of_a_relative_x4_run_is_resumed_in_absolute_mode() {
    for (n, rest) in [("+8388607", "+33554427"), ("-8388607", "-33554427"), ("-3", "-11")] {
        let sign = &n[..1];
        for place in ["0", "77", "2147483647", "-2147483648"] {
            list(&format!(
                "s 00WN,100,11,05,{n},x4,000; s 00WN,101,69; s 00PS,100; M; P; s 00EE; \
                 s 00QR = 00QR,100,{rest},0; s 00WS,CM,1; s 00SA,{place}; s 00PS,101; M; \
                 B = run:{sign},2000,0,{rest},1,0,0; s 00EE; s 00QR = 00QR,100,{rest},0; \
                 s 00QE = 00QE,00,000"
            ));
        }
    }
}

// The other way round: what is left of an absolute run is no target in relative mode either.
#[test]
fn a_rest_of_an_absolute_x4_run_is_resumed_in_relative_mode() {
    list(
        "s 00WS,CM,1; s 00SA,2; s 00WN,100,11,05,+5,x4,000; s 00WN,101,69; s 00PS,100; M; P; \
         s 00EE; s 00QR = 00QR,100,+2,0; s 00WS,CM,0; s 00PS,101; M; B = run:+,2000,0,+2,1,0,0; \
         P 2; s 00QA = 00QA,+5",
    );
}

// A rest of 0 is a cell not yet taken: it is taken anew, from where the drive stands.
#[test]
fn an_x4_run_taken_anew_has_its_target_and_its_limit() {
    let stopped = "s 00WS,CM,1; s 00WN,100,11,05,+5,x4,000; s 00WN,101,69; s 00PS,100; s 00EE";
    list(&format!("{stopped}; s 00SA,8; s 00PS,101; M; B = run:-,2000,0,-3,1,0,0"));
    list(&format!("{stopped}; s 00SA,9000000; s 00PS,101; M; s 00QE = 00QE,50,100"));
}

// 02: ".. and the steps of 05 still multiply."
#[test]
fn the_steps_of_a_05_are_multiplied_in_both_modes() {
    for mode in ["0", "1"] {
        for (steps, left) in [("3", "12"), ("8388607", "33554428"), ("0", "1")] {
            list(&format!(
                "s 00WS,CM,{mode}; s 00SA,2147483647; s 00WN,100,05,10,20,+,{steps},x4,000; \
                 s 00PS,100; M; B = run:+,40000,20,+0,1,0,0; A; s 00ES; \
                 B = run:+,40000,20,+{left},1,0,0"
            ));
        }
    }
}

// Free runs and searches have no target.
#[test]
fn runs_without_a_number_do_not_know_the_mode() {
    for (fields, order) in [
        ("02,10,20,-,x4", "run:-,40000,20,+0,1,0,0"),
        ("32,100,20,+,x4", "run:+,40000,20,+0,1,0,0"),
        ("12,05,-,x4", "run:-,2000,0,+0,1,0,0"),
        ("22,2200,+,x4", "run:+,8724,0,+0,1,0,0"),
        ("03,10,20,+,05", "run:+,10000,20,+0,1,0,0"),
    ] {
        for mode in ["0", "1"] {
            list(&format!(
                "s 00WS,CM,{mode}; s 00SA,-2147483648; s 00WN,100,{fields},000; s 00PS,100; M; \
                 B = {order}"
            ));
        }
    }
}
