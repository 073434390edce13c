//! Call lists as short text, so that a test is one line. Calls are parted by `;` and start with a
//! fresh drive of address 00:
//!
//! - `s TEXT` the string TEXT with byte 13 and a 64-byte buffer (`_` stands for a space),
//! - `i NAMES` the inputs word with these inputs on, `i 0` with none,
//! - `M`, `P`, `A`, `H` a millisecond, a step, at-speed, halted; `M 5` five of them,
//! - `W b` a wait, `B` the board order, `T c` totals from a cell, `F a` a fresh drive of another
//!   address.
//!
//! ` = SEEN` after a call says what must be seen of it: the answer without byte 13 or `silent`, the
//! end and count of a wait, the order, totals as `+18,7`, or a refusal as `!5`. Without it a string
//! must be answered Y, and another call not be refused.

use reference::board::Order;
use reference::memory::Drive;
use reference::totals::Totals;
use reference::wait::End;

const INPUTS: [&str; 11] = ["I0", "I1", "I2", "PX", "S0", "S1", "S2", "S3", "ST", "ES", "EE"];

/// Runs one list on a fresh drive of address 00 and hands back the drive.
pub fn list(text: &str) -> Drive {
    let mut drive = Drive::fresh(0).expect("01 takes address 0");
    go_on(&mut drive, text);
    drive
}

/// Runs one list on a drive that is there already.
pub fn go_on(drive: &mut Drive, text: &str) {
    for call in text.split(';').map(str::trim_start) {
        let (call, seen) = match call.split_once(" = ") {
            Some((call, seen)) => (call.trim_end_matches(' '), seen.trim_end()),
            None => (call.trim_end_matches(' '), ""),
        };
        let (letter, rest) = call.split_once(' ').unwrap_or((call, ""));
        let shown = one_call(drive, letter, rest);
        match (seen, letter) {
            ("", "s") => assert_eq!(shown, format!("{}Y", &rest[..2]), "at `{call}` of `{text}`"),
            ("", _) => assert!(!shown.starts_with('!'), "{shown} at `{call}` of `{text}`"),
            _ => assert_eq!(shown, seen, "at `{call}` of `{text}`"),
        }
    }
}

fn one_call(drive: &mut Drive, letter: &str, rest: &str) -> String {
    match letter {
        "s" => answer(drive, &format!("{}\r", rest.replace('_', " "))),
        "i" => done(drive.inputs(word(rest))),
        "M" => repeated(drive, rest, Drive::millisecond),
        "P" => repeated(drive, rest, Drive::step),
        "A" => repeated(drive, rest, Drive::at_speed),
        "H" => repeated(drive, rest, Drive::halted),
        "W" => waited(drive.wait(rest.parse().expect("a budget"))),
        "B" => order(drive),
        "T" => totals(drive.totals(rest.parse().expect("a start"))),
        "F" => done(Drive::fresh(rest.parse().expect("an address")).map(|fresh| *drive = fresh)),
        _ => panic!("no call `{letter}`"),
    }
}

fn answer(drive: &mut Drive, text: &str) -> String {
    let mut buffer = [0; 64];
    match drive.string(text.as_bytes(), &mut buffer) {
        Err(number) => format!("!{number}"),
        Ok(None) => "silent".to_string(),
        Ok(Some(length)) => {
            let answer = String::from_utf8_lossy(&buffer[..length]).into_owned();
            answer.strip_suffix('\r').expect("an answer ends in byte 13").to_string()
        }
    }
}

fn done(result: Result<(), u8>) -> String {
    match result {
        Ok(()) => "done".to_string(),
        Err(number) => format!("!{number}"),
    }
}

/// The same event so many times; all but the last must be accepted.
fn repeated(drive: &mut Drive, times: &str, event: fn(&mut Drive) -> Result<(), u8>) -> String {
    let times = if times.is_empty() { 1 } else { times.parse().expect("a count") };
    for _ in 1..times {
        assert_eq!(event(drive), Ok(()), "before the last of {times}");
    }
    done(event(drive))
}

fn waited(result: Result<(End, u32), u8>) -> String {
    match result {
        Ok((End::Idle, count)) => format!("idle {count}"),
        Ok((End::Moving, count)) => format!("moving {count}"),
        Ok((End::Spent, count)) => format!("spent {count}"),
        Err(number) => format!("!{number}"),
    }
}

fn totals(result: Result<Totals, u8>) -> String {
    match result {
        Ok(Totals { net, delay }) => format!("{net:+},{delay}"),
        Err(number) => format!("!{number}"),
    }
}

fn word(names: &str) -> u32 {
    names.split(' ').filter(|name| *name != "0").fold(0, |word, name| {
        let place = INPUTS.iter().position(|input| *input == name);
        word | 1 << place.expect("an input")
    })
}

fn order(drive: &Drive) -> String {
    match drive.order() {
        Err(number) => format!("!{number}"),
        Ok(Order::Stand { current, cu, fc }) => format!("stand:{}", supply(current, cu, fc)),
        Ok(Order::Slow { current, cu, fc }) => format!("slow:{}", supply(current, cu, fc)),
        Ok(Order::Run { forward, hertz, ramp, remaining, current, cu, fc }) => {
            let sign = if forward { '+' } else { '-' };
            format!("run:{sign},{hertz},{ramp},{remaining:+},{}", supply(current, cu, fc))
        }
    }
}

/// IN, CU and FC, which stand in every order.
fn supply(current: u8, cu: bool, fc: bool) -> String {
    format!("{current},{},{}", u8::from(cu), u8::from(fc))
}
