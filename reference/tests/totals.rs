//! 02, Slip 2: totals before a start. Worked ones, each reading told apart from its others, every
//! refusal and its place in the order. Programs are run beside their totals in `totals/runs.rs`;
//! random drives are looked at in `generated/summed.rs`.

#[path = "common/board.rs"]
mod board;
#[path = "common/lists.rs"]
mod lists;
#[path = "totals/runs.rs"]
mod runs;
#[path = "common/walks.rs"]
mod walks;

use lists::{go_on, list};
use reference::instruction::{Cell, Instruction};
use reference::memory::{Drive, Resolution};
use reference::totals::Totals;
use walks::{by_texts, ALLOWED};

/// A fresh drive with some cells from 100 upward, given without their next and parted by spaces.
/// Each leads to the one behind it, and the last to 000.
fn program(cells: &str) -> Drive {
    let mut drive = Drive::fresh(0).unwrap();
    let count = cells.split(' ').count();
    for (place, text) in cells.split(' ').enumerate() {
        let next = if place + 1 == count { 0 } else { 101 + place };
        go_on(&mut drive, &format!("s 00WN,{},{text},{next:03}", 100 + place));
    }
    drive
}

/// The totals from cell 100 of such cells.
fn summed(cells: &str) -> (i64, u32) {
    let Totals { net, delay } = program(cells).totals(100).unwrap();
    (net, delay)
}

/// One instruction in every cell from 100 on, so many of them.
fn repeated(text: &str, count: usize) -> Drive {
    program(&vec![text; count].join(" "))
}

/// A cell of each of the codes that are not allowed, without its next.
const OTHERS: [&str; 9] = [
    "02,10,20,+,x1",
    "03,10,20,+,05",
    "05,10,20,+,300,x4",
    "12,05,-,x1",
    "22,2181,+,x4",
    "32,100,20,-,x1",
    "61,2",
    "62,150",
    "63,I0,0,150",
];

// ---- the sums

// 02: "follow next addresses to 000 and give the net steps (with multipliers, relative mode) and the
// delay milliseconds"
#[test]
fn a_feed_adds_up() {
    let feed = "s 00WN,100,21,2200,+5,x4,107; s 00WN,107,65,7,230; s 00WN,230,11,05,-2,x1,000";
    list(&format!("{feed}; T 100 = +18,7; T 107 = -2,7; T 230 = -2,0; T 101 = +0,0"));
}

#[test]
fn every_run_counts_its_steps_times_m() {
    for run in ["01,10,20", "31,100,20", "11,05", "21,2200"] {
        for n in [0, 1, -1, 7, -500, 8_388_607, -8_388_607] {
            assert_eq!(summed(&format!("{run},{n:+},x1")), (n, 0), "{run}");
            assert_eq!(summed(&format!("{run},{n:+},x4")), (4 * n, 0), "{run}");
        }
    }
}

// 02: "Codes 00, 01, 11, 21, 31, 57, 58, 60, 65 and 70 are allowed."
#[test]
fn what_sets_something_adds_nothing() {
    for text in ["00", "57,1,+50", "57,0,+0", "58,O3,1", "58,F7,0", "60", "70,1", "70,0"] {
        assert_eq!(summed(text), (0, 0), "{text}");
        assert_eq!(summed(&format!("11,05,+3,x4 {text} 65,9")), (12, 9), "{text}");
    }
}

// A 60 sets the position and makes no step, so the sum goes on over it.
#[test]
fn a_60_does_not_clear_the_sum() {
    assert_eq!(summed("11,05,+3,x1 60"), (3, 0));
    assert_eq!(summed("11,05,+3,x1 60 11,05,+4,x1 60 65,5 60"), (7, 5));
}

#[test]
fn zero_steps_and_zero_milliseconds_add_nothing() {
    assert_eq!(summed("11,05,+0,x4 65,0 01,10,20,-0,x1"), (0, 0));
    assert_eq!(summed("11,05,+0,x4 65,1 01,10,20,-1,x1"), (-1, 1));
    assert_eq!(summed("11,05,+5,x4 21,0100,-20,x1"), (0, 0));
}

// 01: "65: a delay of nnn later milliseconds". The millisecond that takes a cell is not among them.
#[test]
fn only_delays_count_milliseconds() {
    assert_eq!(summed("65,1"), (0, 1));
    assert_eq!(summed("00 58,O0,1 65,10 00 65,20 58,O0,0"), (0, 30));
    let drive = repeated("65,65535", 131);
    assert_eq!(drive.totals(100), Ok(Totals { net: 0, delay: 8_585_085 }));
}

// 02, Slip 6: "Interrupted rests, delays and totals follow the new limit"
#[test]
fn totals_count_longer_delays() {
    assert_eq!(summed("65,65535 65,65536"), (0, 131_071));
    assert_eq!(summed("65,8388607 11,05,-8388607,x4 65,8388607 65,1"), (-33_554_428, 16_777_215));
    let drive = repeated("65,8388607", 131);
    assert_eq!(drive.totals(100), Ok(Totals { net: 0, delay: 1_098_907_517 }));
    assert_eq!(drive.totals(229), Ok(Totals { net: 0, delay: 16_777_214 }));
}

#[test]
fn a_longer_delay_lasts_what_its_totals_say() {
    list(
        "s 00WN,100,65,65536,101; s 00WN,101,65,70000,000; T 100 = +0,135536; s 00PS,100; \
         W 1000000 = idle 135538",
    );
    list(
        "s 00WN,100,65,8388607,000; s 00PS,100; M 3; T 100 = +0,8388607; s 00EE; \
         s 00QR = 00QR,100,+8388605,0; T 100 = +0,8388607",
    );
}

// The position has 32 bits and goes round; the net steps are a true sum.
#[test]
fn net_steps_go_beyond_32_bits() {
    for count in [1, 63, 64, 65, 127, 128, 129, 131] {
        for n in [8_388_607, -8_388_607] {
            let drive = repeated(&format!("31,240,42,{n:+},x4"), count);
            let net = 4 * n * count as i64;
            assert_eq!(drive.totals(100), Ok(Totals { net, delay: 0 }), "{count} cells");
        }
    }
    let most = repeated("01,10,20,+8388607,x4", 131);
    assert_eq!(most.totals(100).unwrap().net, 4_395_630_068);
}

// 02: "relative mode". Whatever preset CM and the position are, n×m counts.
#[test]
fn absolute_mode_changes_nothing() {
    let cells = "s 00WN,100,11,05,+3,x1,101; s 00WN,101,11,05,-1,x4,102; s 00WN,102,65,2,000";
    for absolute in ["s 00WS,CM,0", "s 00WS,CM,1", "s 00WS,CM,1; s 00SA,+2147483647"] {
        list(&format!("{cells}; {absolute}; T 100 = -1,2"));
    }
}

// 02: "if RS allows x4". It says when a run makes these steps; x4 counts 4 under every RS.
#[test]
fn x4_counts_4_under_every_rs() {
    for name in Resolution::NAMES {
        list(&format!("s 00WN,100,11,05,+3,x4,000; s 00WS,RS,{name}; T 100 = +12,0"));
    }
    list("s 00WN,100,11,05,+3,x4,000; s 00WS,RS,D0; s 00PS,100; M; s 00QE = 00QE,51,100");
}

// ---- the walk

#[test]
fn a_fresh_cell_ends_by_its_000() {
    list("T 100 = +0,0; T 165 = +0,0; T 230 = +0,0");
    list("s 00WN,100,00,101; s 00WN,101,65,3,150; T 100 = +0,3");
}

#[test]
fn all_131_cells_in_any_order_are_walked_along() {
    // 131 is a prime number, so steps of 37 places meet every cell once.
    let mut drive = Drive::fresh(0).unwrap();
    for place in 0..131 {
        let next = (place + 37) % 131;
        let next = if next == 0 { 0 } else { 100 + next };
        go_on(&mut drive, &format!("s 00WN,{},21,1000,+{place},x4,{next:03}", 100 + place));
    }
    go_on(&mut drive, "T 100 = +34060,0; T 194 = +376,0; T 157 = +604,0");
    go_on(&mut drive, "s 00WN,194,65,8,100; T 100 = !12; s 00WN,194,61,8,000; T 100 = !13");
}

/// The parts of a memory of four cells: any of them leads to any, or to 000, and may be of another
/// code.
fn small_memory(number: usize) -> Drive {
    let mut drive = Drive::fresh(0).unwrap();
    for (place, cell) in drive.cells[..4].iter_mut().enumerate() {
        let part = number / 10_usize.pow(place as u32) % 10;
        let instruction = match part / 5 {
            0 => Instruction::Indexed { frequency: 5, steps: 10_i32.pow(place as u32), x4: false },
            _ => Instruction::OpeningLoop { count: 1 },
        };
        let next = if part % 5 == 4 { 0 } else { 100 + part as u8 % 5 };
        *cell = Cell { instruction, next };
    }
    drive
}

#[test]
fn every_linking_of_four_cells_is_walked_along() {
    let (mut done, mut round, mut other) = (0, 0, 0);
    for number in 0..10_000 {
        let drive = small_memory(number);
        for start in 100..104 {
            let result = drive.totals(start);
            assert_eq!(result, by_texts(&drive, start), "{number} from {start}");
            match result {
                Ok(_) => done += 1,
                Err(12) => round += 1,
                Err(_) => other += 1,
            }
        }
    }
    assert!(done > 5_000 && round > 5_000 && other > 5_000, "{done}, {round}, {other}");
}

// ---- refusals

// 02: "11, start outside 100 to 230"
#[test]
fn a_start_outside_100_to_230_is_11() {
    let drive = repeated("11,05,+1,x1", 131);
    for start in (0..100).chain(231..=600).chain([65_536, 65_636, 65_766, u32::MAX]) {
        assert_eq!(drive.totals(start), Err(11), "{start}");
    }
    assert_eq!(drive.totals(100), Ok(Totals { net: 131, delay: 0 }));
    assert_eq!(drive.totals(230), Ok(Totals { net: 1, delay: 0 }));
}

// 02: "12 for a cell met twice"
#[test]
fn a_cell_met_twice_is_12() {
    list("s 00WN,100,65,3,100; T 100 = !12");
    list("s 00WN,100,65,3,101; s 00WN,101,11,05,+1,x1,100; T 100 = !12; T 101 = !12");
    // Back to the middle, and to the last itself.
    let tail = "s 00WN,100,00,101; s 00WN,101,60,102; s 00WN,102,70,1";
    list(&format!("{tail},101; T 100 = !12; T 101 = !12; T 102 = !12"));
    list(&format!("{tail},102; T 100 = !12; T 102 = !12"));
    list(&format!("{tail},000; T 100 = +0,0"));
    // Two cells may name the same next one, as long as one walk has only one of them.
    let fork = "s 00WN,100,65,1,102; s 00WN,101,65,2,102; s 00WN,102,65,4,000";
    list(&format!("{fork}; T 100 = +0,5; T 101 = +0,6"));
}

// 02: "13 for another code"
#[test]
fn another_code_is_13() {
    for text in OTHERS {
        let cells = format!("s 00WN,100,65,3,101; s 00WN,101,{text},000");
        list(&format!("{cells}; T 100 = !13; T 101 = !13"));
        // At the start, and on the way to 000.
        let cells = format!("s 00WN,100,{text},101; s 00WN,101,65,3,000");
        list(&format!("{cells}; T 100 = !13; T 101 = +0,3"));
    }
    list("s 00WN,100,65,3,101; s 00WN,101,69; T 100 = !13; T 101 = !13");
    assert_eq!(OTHERS.len() + 1 + ALLOWED.len(), 20);
}

// 63 and 62 are other codes: no EEE is followed.
#[test]
fn a_jump_is_not_followed() {
    list("s 00WN,100,63,I0,0,102,102; s 00WN,102,65,1,000; T 100 = !13; T 102 = +0,1");
    list("s 00WN,100,62,102,102; s 00WN,102,65,1,000; T 100 = !13");
}

// What the walk doesn't reach is no matter.
#[test]
fn cells_beside_the_walk_do_not_count() {
    list(
        "s 00WN,101,62,101,101; s 00WN,230,69; s 00WN,103,65,4,103; s 00WN,100,65,1,102; \
         s 00WN,102,11,05,+6,x1,000; T 100 = +6,1",
    );
}

// ---- the order of refusals

fn unsound(mut drive: Drive) -> Drive {
    drive.cam.position = 1;
    drive
}

// 02: "11, .. after 2; then .. 12 .. and 13"
#[test]
fn an_unsound_drive_is_2_before_all_else() {
    let round = list("s 00WN,100,65,3,100");
    let other = list("s 00WN,100,69");
    for drive in [Drive::fresh(0).unwrap(), round, other] {
        for start in [0, 99, 100, 101, 230, 231, 255, 256, u32::MAX] {
            assert_eq!(unsound(drive).totals(start), Err(2), "{start}");
        }
    }
}

// The cells that no walk meets are judged too: 2 is of the whole drive.
#[test]
fn an_unsound_cell_beside_the_walk_is_2() {
    let mut drive = list("s 00WN,100,65,3,000");
    drive.cells[130].next = 99;
    assert_eq!(drive.totals(100), Err(2));
}

#[test]
fn a_wrong_start_is_11_whatever_the_cells_hold() {
    let round = repeated("65,1", 131);
    let round = Drive { cells: round.cells.map(|cell| Cell { next: 100, ..cell }), ..round };
    let other = Cell { instruction: Instruction::Recovery, next: 0 };
    for drive in [round, Drive { cells: [other; 131], ..round }] {
        for start in [0, 99, 231, 255, 256, 356] {
            assert_eq!(drive.totals(start), Err(11), "{start}");
        }
        assert!(matches!(drive.totals(100), Err(12 | 13)));
    }
}

// 02: "whichever is met first along the walk". The two never meet at one cell: a cell that is met
// twice was allowed when it was met first. So there is no list to tell apart which of them is judged
// first at a cell.
#[test]
fn what_is_met_first_is_told() {
    // A circle, and another code that would come behind it.
    list("s 00WN,100,65,1,101; s 00WN,101,65,1,100; s 00WN,102,61,2,000; T 100 = !12; T 102 = !13");
    // Another code that leads back: it is met before the circle is closed.
    list("s 00WN,100,65,1,101; s 00WN,101,61,2,100; T 100 = !13; T 101 = !13");
    list("s 00WN,100,61,2,100; T 100 = !13");
    // The other code leads into a circle.
    let circle = "s 00WN,110,00,111; s 00WN,111,00,110";
    list(&format!("{circle}; s 00WN,100,63,I0,1,110,110; T 100 = !13; T 110 = !12"));
}

// ---- what doesn't enter

const PROGRAM: &str = "s 00WN,100,65,9,101; s 00WN,101,01,10,20,+3,x4,102; s 00WN,102,65,1,103; \
                       s 00WN,103,11,05,-2,x1,000";

#[test]
fn a_busy_drive_is_served() {
    for state in [
        "s 00PS,100",
        "s 00PS,100; M 5",
        "s 00PS,101; M; P 3",
        "s 00PS,101; M; A; P",
        "s 00PS,101; M; P; s 00EE",
        "s 00PS,103; M; P",
    ] {
        let drive = list(&format!("{PROGRAM}; {state}; T 100 = +10,10; T 101 = +10,1; T 0 = !11"));
        assert!(!drive.idle(), "{state}");
    }
    list("s 00WN,100,12,05,+,x1,000; s 00PS,100; M; P 4; T 100 = !13; T 101 = +0,0");
}

#[test]
fn record_inputs_position_and_error_do_not_enter() {
    for state in [
        "s 00PS,100; M 3; s 00EE; s 00QR = 00QR,100,+7,0",
        "s 00PS,103; M; P; s 00EE; s 00QR = 00QR,103,-1,0",
        "i EE",
        "i ES PX ST",
        "s 00SA,-2147483648",
        "s 00SC,1,+5; s 00SO,O3,1",
        "s 00WS,RS,B0; s 00PS,101; M; s 00QE = 00QE,51,101",
    ] {
        list(&format!("{PROGRAM}; {state}; T 100 = +10,10; T 102 = -2,1"));
    }
}

// 01: "Every refusal hands back its number, the drive as it came"
#[test]
fn asking_leaves_the_drive_as_it_is() {
    let drive = list(&format!("{PROGRAM}; s 00PS,100; M 2"));
    let mut asked = drive;
    go_on(&mut asked, "T 100 = +10,10; T 99 = !11; T 231 = !11; T 104 = +0,0");
    assert_eq!(asked, drive);
}

// 02: "The steps are those that an uninterrupted run makes"
#[test]
fn a_program_does_what_its_totals_say() {
    list(&format!(
        "{PROGRAM}; T 100 = +10,10; s 00PS,100; W 99 = moving 11; P 12; W 99 = moving 3; P 2; \
         W 9 = idle 0; s 00QA = 00QA,+10"
    ));
}
