//! What is seen of each word, byte for byte.

use crate::notation::list;
use crate::{fresh, inputs_word, seen, string, string_with_room, travel_word, wait_word};
use reference::lists::perform;

/// The order and the outputs of a drive, as its B word shows them.
fn order_of(calls: &str) -> Vec<u8> {
    seen(&mut list(calls), b"B")
}

#[test]
fn an_answer_is_seen_with_its_length() {
    assert_eq!(seen(&mut fresh(), &string("00QA")), b"\x00\x0800QA,+0\r");
    assert_eq!(seen(&mut fresh(), &string("00XX")), b"\x00\x0400N\r");
}

// 01: "Silent means no effect and no answer."
#[test]
fn a_silent_string_has_length_0() {
    for silent in ["01QA", "99QA", ""] {
        assert_eq!(seen(&mut fresh(), &string(silent)), b"\x00\x00", "{silent}");
    }
    assert_eq!(seen(&mut fresh(), &string_with_room(64, b"")), b"\x00\x00");
}

// 01: "3, answer buffer under 64 bytes"
#[test]
fn a_string_with_a_short_buffer_is_refused_and_the_list_goes_on() {
    let mut drive = fresh();
    for room in [0, 1, 63] {
        let word = string_with_room(room, b"00SA,7\r");
        assert_eq!(seen(&mut drive, &[&word[..], b"P"].concat()), [3, 0, 5], "{room}");
    }
    assert_eq!(drive, fresh());
    for room in [64, 65, 255] {
        assert_eq!(seen(&mut drive, &string_with_room(room, b"00SA,7\r")), b"\x00\x0400Y\r");
    }
}

// 01: "over 64 bytes with the 13 .. `AAN`"
#[test]
fn a_string_may_be_longer_than_the_drive_takes() {
    let long = format!("00QA{}", "0".repeat(300));
    assert_eq!(seen(&mut fresh(), &string(&long)), b"\x00\x0400N\r");
}

// 01: "Inputs: 2; 4, word above 2,047."
#[test]
fn inputs_words() {
    let mut drive = fresh();
    assert_eq!(seen(&mut drive, &inputs_word(0x0403)), [0]);
    assert_eq!((drive.inputs.i, drive.inputs.ee), ([true, true, false], true));
    assert_eq!(seen(&mut drive, &inputs_word(2_047)), [0]);
    assert_eq!(seen(&mut drive, &inputs_word(2_048)), [4]);
    assert_eq!(seen(&mut drive, &inputs_word(u16::MAX)), [4]);
}

// 01: "5, no run under way"; "6, at-speed outside the run or braking of a ramp run, halted outside
// both slowings"
#[test]
fn milliseconds_and_reports() {
    assert_eq!(seen(&mut fresh(), b"MPAH"), [0, 5, 6, 6]);
    let mut ramp = list("s 00WN,100,02,10,20,+,x1,000; s 00PS,100");
    assert_eq!(seen(&mut ramp, b"MPA"), [0, 0, 0]);
    assert_eq!(seen(&mut ramp, &[string("00ES"), b"PH".to_vec()].concat()), b"\x00\x0400Y\r\0\0");
    assert!(ramp.idle());
}

// 01: "Wait: 2; 8, budget 0 or above 1,000,000."
#[test]
fn waits_with_their_end_and_count() {
    let delay = "s 00WN,100,65,300,101; s 00WN,101,11,05,+5,x1,000; s 00PS,100";
    assert_eq!(seen(&mut fresh(), &wait_word(5)), [0, 1, 0, 0, 0, 0]);
    assert_eq!(seen(&mut list(delay), &wait_word(300)), [0, 3, 0x2c, 1, 0, 0]);
    assert_eq!(seen(&mut list(delay), &wait_word(1_000_000)), [0, 2, 0x2e, 1, 0, 0]);
    for budget in [0, 1_000_001, u32::MAX] {
        assert_eq!(seen(&mut list(delay), &wait_word(budget)), [8, 0, 0, 0, 0, 0]);
    }
}

#[test]
fn the_order_to_stand_with_current_and_signals() {
    assert_eq!(order_of("B"), [0, 0, 1, 0, 0, 0, 0, 0, 0, 0, 0, 0, 0, 0, 0, 0, 0]);
    let signals = "s 00WS,IN,3; s 00WN,100,70,1,000; s 00SO,FC,1; s 00PS,100; M";
    // CU is bit 0 of the signals and bit 13 of the outputs, FC bit 1 and bit 4.
    assert_eq!(order_of(signals), [0, 0, 3, 3, 0, 0, 0, 0, 0, 0, 0, 0, 0, 0x10, 0x20, 0, 0]);
    let fc = "s 00SO,FC,1";
    assert_eq!(order_of(fc), [0, 0, 1, 2, 0, 0, 0, 0, 0, 0, 0, 0, 0, 0x10, 0, 0, 0]);
}

#[test]
fn the_order_to_run_with_hertz_ramp_and_rest() {
    let ramp = "s 00WN,100,01,24,42,+1200,x4,000; s 00PS,100; M";
    // 24,000 Hz x 4 is 0x17700, 4,800 steps 0x12c0.
    assert_eq!(order_of(ramp), [0, 2, 1, 0, 42, 0, 0x77, 1, 0, 0xc0, 0x12, 0, 0, 0, 0, 0, 0]);
    let backward = "s 00WN,100,11,05,-1200,x1,000; s 00PS,100; M; P";
    let rest = [0x51, 0xfb, 0xff, 0xff];
    let head = [0, 2, 1, 4, 0, 0xf4, 1, 0, 0];
    assert_eq!(order_of(backward), [&head[..], &rest, &[0; 4]].concat());
    let free = "s 00WN,100,12,05,-,x1,000; s 00PS,100; M";
    assert_eq!(order_of(free), [&head[..], &[0; 8]].concat());
}

#[test]
fn the_order_to_slow_has_current_and_signals_only() {
    let slowing = "s 00WS,IN,2; s 00WN,100,02,10,20,-,x1,000; s 00PS,100; M; s 00ES";
    assert_eq!(order_of(slowing), [0, 1, 2, 0, 0, 0, 0, 0, 0, 0, 0, 0, 0, 0, 0, 0, 0]);
}

#[test]
fn each_output_has_its_bit() {
    let names = ["O0", "O1", "O2", "O3", "FC", "F0", "F1", "F2", "F3", "F4", "F5", "F6", "F7"];
    for (place, name) in names.iter().enumerate() {
        let shown = order_of(&format!("s 00SO,{name},1"));
        assert_eq!(shown[13..], (1u32 << place).to_le_bytes(), "{name}");
    }
}

#[test]
fn travels_with_their_count() {
    let run = "s 00WN,100,11,05,+1200,x1,000; s 00PS,100; M";
    assert_eq!(seen(&mut list(run), &travel_word(0x0102)), [0, 2, 1, 0, 0]);
    assert_eq!(seen(&mut list(run), &travel_word(u32::MAX)), [0, 0xb0, 4, 0, 0]);
    assert_eq!(seen(&mut list(run), &travel_word(0)), [0; 5]);
    assert_eq!(seen(&mut fresh(), &travel_word(96)), [0; 5]);
}

#[test]
fn words_are_carried_out_one_after_another() {
    let words = [
        string("00WN,100,11,05,+3,x1,000"),
        string("00PS,100"),
        b"P".to_vec(),
        wait_word(9),
        travel_word(2),
        b"PP".to_vec(),
        string("00QA"),
    ];
    let expected = b"\0\x0400Y\r\0\x0400Y\r\x05\0\x02\x01\0\0\0\0\x02\0\0\0\0\x05\0\x0800QA,+3\r";
    assert_eq!(seen(&mut fresh(), &words.concat()), expected);
}

#[test]
fn an_empty_list_shows_nothing() {
    let mut drive = fresh();
    assert_eq!(perform(&mut drive, b"", 0), Ok(Vec::new()));
    assert_eq!(drive, fresh());
}
