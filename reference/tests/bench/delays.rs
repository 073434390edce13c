//! 02, Slip 6: longer waits. What a 65 takes, how waits go through it, and what is left of it when it
//! is stopped. Points 6.1 to 6.4.

use crate::lists::{go_on, list};
use crate::{all_rejected, reads_back};
use reference::instruction::{Cell, Instruction};
use reference::memory::Drive;

/// The longest delay in cell 100, taken by one millisecond.
const LONGEST: &str = "s 00WN,100,65,8388607,000; s 00PS,100; M";

/// So many waits of 1,000,000, each of them spent.
fn spent(waits: usize) -> String {
    "; W 1000000 = spent 1000000".repeat(waits)
}

// 02: "Code 65 takes 0 to 8,388,607 milliseconds"
#[test]
fn a_65_takes_0_to_8388607() {
    for delay in [0, 1, 65_535, 65_536, 65_537, 131_071, 2_097_152, 8_388_606, 8_388_607] {
        reads_back(&format!("65,{delay},000"), &format!("65,{delay},000"));
        reads_back(&format!("65,{delay:010},230"), &format!("65,{delay},230"));
    }
    for delay in [8_388_608_u64, 8_454_143, 16_777_215, 16_777_216, 4_294_967_295, 4_294_967_296] {
        all_rejected(&format!("WN,100,65,{delay},000 WN,230,65,{delay:010},100"));
    }
}

#[test]
fn a_65_that_gets_n_leaves_its_cell() {
    for kept in [65_535, 65_536, 8_388_607] {
        list(&format!(
            "s 00WN,100,65,{kept},000; s 00WN,100,65,8388608,000 = 00N; \
             s 00QM,100 = 00QM,100,65,{kept},000"
        ));
    }
}

// 02: "loop counts stay at 65,535"
#[test]
fn a_61_takes_no_more_than_65535() {
    reads_back("61,65535,000", "61,65535,000");
    all_rejected("WN,100,61,65536,000 WN,100,61,65537,000 WN,100,61,131071,000");
    all_rejected("WN,100,61,8388607,000 WN,100,61,8388608,000 WN,100,61,0,000");
    list(
        "s 00WN,100,61,65535,101; s 00WN,100,61,65536,101 = 00N; \
         s 00QM,100 = 00QM,100,61,65535,101; s 00PS,100; M; s 00EE; s 00QR = 00QR,101,+0,65535",
    );
}

// 02: "the budget of a wait keeps its own". 6.4: "a wait longer than 1,000,000 ends by spent; the
// next wait goes on"
#[test]
fn the_longest_delay_is_nine_waits() {
    list(&format!("{LONGEST}{}; W 1000000 = idle 388607", spent(8)));
    // The first of these milliseconds takes the cell.
    list(&format!(
        "s 00WN,100,65,8388607,000; s 00PS,100{}; W 388607 = spent 388607; W 9 = idle 1",
        spent(8)
    ));
    list(&format!(
        "{LONGEST}; W 0 = !8; W 1000001 = !8; W 8388607 = !8; W 1000000 = spent 1000000"
    ));
}

#[test]
fn a_wait_goes_on_behind_a_longer_delay() {
    let run = "s 00WN,101,11,05,+3,x1,000; s 00PS,100";
    list(&format!("s 00WN,100,65,65536,101; {run}; W 100000 = moving 65538; P 3; W 9 = idle 0"));
    list(&format!(
        "s 00WN,100,65,1000000,101; {run}; W 1000000 = spent 1000000; W 1000000 = moving 2; P 3"
    ));
    // 15 times round, and 16,945 of the next.
    list(
        "s 00WN,100,65,65536,100; s 00PS,100; W 1000000 = spent 1000000; s 00EE; \
         s 00QR = 00QR,100,+48592,0",
    );
}

// 02: "Interrupted rests, delays and totals follow the new limit"
#[test]
fn a_stop_records_what_each_wait_leaves() {
    for waits in 0..=8 {
        let left = 8_388_607 - 1_000_000 * waits;
        let waited = format!("{LONGEST}{}", spent(waits));
        list(&format!("{waited}; s 00EE; s 00QR = 00QR,100,+{left},0"));
        list(&format!("{waited}; i EE; s 00QR = 00QR,100,+{left},0"));
    }
    let last = format!("{LONGEST}{}; W 323071 = spent 323071", spent(8));
    list(&format!("{last}; s 00EE; s 00QR = 00QR,100,+65536,0"));
    list(&format!("{last}; M; s 00EE; s 00QR = 00QR,100,+65535,0"));
    list(&format!("{last}; W 65535 = spent 65535; s 00EE; s 00QR = 00QR,100,+1,0"));
}

#[test]
fn a_69_resumes_a_longer_rest() {
    let resumed = "s 00WN,102,69; s 00PS,102; M";
    let stopped = "s 00WN,100,65,8388607,101; s 00WN,101,58,FC,1,000; s 00PS,100; \
                   W 1000000 = spent 1000000; s 00EE; s 00QR = 00QR,100,+7388608,0";
    // Resumed and stopped again at once, then carried through.
    list(&format!(
        "{stopped}; {resumed}; s 00EE; s 00QR = 00QR,100,+7388608,0; {resumed}{}; \
         W 388608 = spent 388608; B = stand:1,0,0; W 9 = idle 1; B = stand:1,0,1; s 00QR = 00QR,000",
        spent(7)
    ));
    list(&format!("{stopped}; {resumed}; W 7; s 00EE; s 00QR = 00QR,100,+7388601,0"));
}

#[test]
fn a_longer_rest_is_recorded_with_the_greatest_loop_count() {
    list(
        "s 00WN,100,61,65535,101; s 00WN,101,65,8388607,000; s 00PS,100; M 2; s 00EE; \
         s 00QR = 00QR,101,+8388607,65535",
    );
}

// 01: "WN of changed content into the interrupted record's cell empties the record; WN of equal
// content leaves it."
#[test]
fn a_longer_rest_goes_with_its_cell_alone() {
    let stopped = format!("{LONGEST}; s 00EE; s 00QR = 00QR,100,+8388607,0");
    list(&format!("{stopped}; s 00WN,100,65,0008388607,000; s 00QR = 00QR,100,+8388607,0"));
    list(&format!("{stopped}; s 00WN,100,65,8388608,000 = 00N; s 00QR = 00QR,100,+8388607,0"));
    list(&format!("{stopped}; s 00WN,100,65,8388606,000; s 00QR = 00QR,000"));
    // The two are equal in 16 bits.
    list(&format!("{stopped}; s 00WN,100,65,65535,000; s 00QR = 00QR,000"));
}

// 02: "a drive that holds such a cell is sound"
#[test]
fn a_drive_that_holds_longer_delays_is_sound() {
    let mut drive = Drive::fresh(0).unwrap();
    for milliseconds in [65_536, 8_388_607] {
        let instruction = Instruction::TimeDelay { milliseconds };
        drive.cells = [Cell { instruction, next: 230 }; 131];
        assert!(drive.sound());
        go_on(
            &mut drive,
            &format!("s 00QM,177 = 00QM,177,65,{milliseconds},230; s 00PS,177; M; s 00EE"),
        );
    }
    drive.cells[77].instruction = Instruction::TimeDelay { milliseconds: 8_388_608 };
    assert!(!drive.sound());
}
