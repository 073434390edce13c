//! 01, "Bench strings and near misses": the console program, byte for byte.

use reference::console::console;
use std::io::{self, Read, Write};

fn answers(input: &str) -> String {
    let mut output = Vec::new();
    console(input.as_bytes(), &mut output);
    String::from_utf8_lossy(&output).into_owned()
}

#[test]
fn example_of_01() {
    let input = "00QA\r00WN,228,65,0400,000\r00QM,228\r";
    assert_eq!(answers(input), "00QA,+0\r00Y\r00QM,228,65,400,000\r");
}

#[test]
fn bytes_after_the_last_13_are_dropped() {
    assert_eq!(answers(""), "");
    assert_eq!(answers("00QA"), "");
    assert_eq!(answers("00QA\r00QA"), "00QA,+0\r");
}

#[test]
fn longer_string_is_rejected_and_the_next_one_heard() {
    for zeros in [59, 60, 61, 100, 1000] {
        let input = format!("00QA{}\r00QA\r", "0".repeat(zeros));
        assert_eq!(answers(&input), "00N\r00QA,+0\r", "{zeros}");
    }
}

#[test]
fn longer_string_is_silent_for_another_address_and_while_busy() {
    let long = "0".repeat(100);
    assert_eq!(answers(&format!("01QA{long}\r")), "");
    assert_eq!(answers(&format!("99QA{long}\r")), "");
    let input = format!("00WN,100,65,5000,000\r00PS,100\r00QA{long}\r00EE{long}\r00EE\r");
    assert_eq!(answers(&input), "00Y\r00Y\r00N\r00Y\r");
}

#[test]
fn silent_strings_write_nothing() {
    assert_eq!(answers("\r0\r05QA\rqa\r 00QA\r99QA\r"), "");
    assert_eq!(answers("99WS,IN,2\r00QS,IN\r"), "00QS,IN,2\r");
}

#[test]
fn line_feed_belongs_to_the_next_string() {
    assert_eq!(answers("00QA\r\n00QA\r"), "00QA,+0\r");
}

#[test]
fn each_string_is_followed_by_a_wait_of_1000() {
    let program = "00WN,100,65,1999,000\r";
    assert_eq!(answers(&format!("{program}00PS,100\r00QA\r00QA\r")), "00Y\r00Y\r00QA,+0\r");
    assert_eq!(answers(&format!("{program}00PS,100\r\r00QA\r")), "00Y\r00Y\r00QA,+0\r");
    let longer = "00WN,100,65,2000,000\r";
    assert_eq!(answers(&format!("{longer}00PS,100\r\r00QA\r")), "00Y\r00Y\r");
}

#[test]
fn run_without_a_board_lasts_until_it_is_stopped() {
    let input = "00WN,100,11,05,+3,x1,000\r00PS,100\r00QA\r00EE\r00QR\r";
    assert_eq!(answers(input), "00Y\r00Y\r00Y\r00QR,100,+3,0\r");
}

#[test]
fn string_of_any_length_is_read() {
    let input = io::repeat(b'0').take(3_000_000).chain(&b"\r00QA\r"[..]);
    let mut output = Vec::new();
    console(input, &mut output);
    assert_eq!(output, b"00N\r00QA,+0\r");
}

/// An output that takes so many bytes and no more.
struct Closing(usize);

impl Write for Closing {
    fn write(&mut self, bytes: &[u8]) -> io::Result<usize> {
        if bytes.len() > self.0 {
            return Err(io::ErrorKind::BrokenPipe.into());
        }
        self.0 -= bytes.len();
        Ok(bytes.len())
    }

    fn flush(&mut self) -> io::Result<()> {
        Ok(())
    }
}

#[test]
fn closed_output_ends_it() {
    let endless = (&b"00QA\r00QA\r"[..]).chain(io::repeat(b'0'));
    console(endless, Closing(10));
}
