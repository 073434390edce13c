//! Scripts of calls and what is seen of them: one line of observations for each call.

use crate::board::Order;
use crate::frequency::round_frequency;
use crate::memory::Drive;
use crate::raw::{self, unsigned};
use crate::reading::reading;
use crate::totals::Totals;
use crate::usage::UsedCells;
use crate::wait::End;

/// A script under way: its drive, once the first call has made one, and how many lines were read.
#[derive(Default)]
pub struct Replay {
    kept: Option<Kept>,
    lines: usize,
}

/// The drive in use and the map of its used cells. Strings bring the map up to date; it is counted
/// anew where the drive is another one.
struct Kept {
    drive: Drive,
    used: UsedCells,
}

/// The letters of the calls that have a fixed number of words.
const CALLS: [&str; 17] =
    ["F", "S", "I", "M", "P", "A", "H", "W", "B", "R", "Q", "O", "L", "T", "U", "V", "X"];

/// What is seen of one call, beside the order and the outputs afterwards.
#[derive(Default)]
struct Seen {
    refusal: Option<u8>,
    answer: Option<String>,
    buffer: Option<u64>,
    wait: Option<(End, u32)>,
}

/// All lines of observations, or the complaint about the first malformed line.
pub fn replay(script: &str) -> Result<String, String> {
    let mut replay = Replay::default();
    let mut observations = String::new();
    for line in script.split_terminator('\n') {
        observations += &replay.line(line)?;
    }
    Ok(observations)
}

impl Replay {
    /// The drive in use, once there is one.
    pub fn drive(&self) -> Option<&Drive> {
        self.kept.as_ref().map(|kept| &kept.drive)
    }

    /// Carries out one line, given without its line feed. Gives its line of observations, nothing
    /// for a comment, or a complaint with the line's number.
    pub fn line(&mut self, line: &str) -> Result<String, String> {
        self.lines += 1;
        if line.starts_with('#') {
            return Ok(String::new());
        }
        let words: Vec<&str> = line.split(' ').collect();
        let seen = match &mut self.kept {
            Some(kept) => call(kept, &words),
            None => first(&words).map(|drive| {
                self.kept = Some(Kept::of(drive));
                Seen::default()
            }),
        };
        let seen = seen.map_err(|complaint| format!("line {}: {complaint}", self.lines))?;
        Ok(self.kept.as_ref().map(|kept| seen.print(&kept.drive)).unwrap_or_default())
    }
}

impl Kept {
    fn of(drive: Drive) -> Kept {
        Kept { used: UsedCells::count(&drive), drive }
    }
}

/// The first call of a script is an F that isn't refused.
fn first(words: &[&str]) -> Result<Drive, String> {
    match words {
        ["F", address] => Drive::fresh(unsigned(address)?)
            .map_err(|refusal| format!("the first call is refused {refusal}")),
        _ => Err("the first call is not an F".to_string()),
    }
}

fn call(kept: &mut Kept, words: &[&str]) -> Result<Seen, String> {
    let drive = &mut kept.drive;
    Ok(match words {
        ["F", address] => {
            Seen::of(Drive::fresh(unsigned(address)?).map(|fresh| *kept = Kept::of(fresh)))
        }
        ["S", string, size, fill] => {
            call_string(kept, &bytes(string, 256)?, at_most(size, 256)?, at_most(fill, 255)?)
        }
        ["I", word] => Seen::of(drive.inputs(unsigned(word)?)),
        ["M"] => Seen::of(drive.millisecond()),
        ["P"] => Seen::of(drive.step()),
        ["A"] => Seen::of(drive.at_speed()),
        ["H"] => Seen::of(drive.halted()),
        ["W", budget] => Seen::of_wait(drive.wait(unsigned(budget)?)),
        ["B"] => Seen::of(drive.order().map(drop)),
        ["R", value] => {
            Seen::of_answer(round_frequency(unsigned(value)?).map(|value| value.to_string()))
        }
        ["Q"] => Seen::of_answer(
            reading(drive).map(|answers| format!("{}:{}", answers.len(), weighted_sum(&answers))),
        ),
        ["K", field @ ..] => {
            let written = raw::write(drive, field)?;
            call_raw(kept, written)
        }
        ["O", size, fill] => call_image(drive, at_most(size, 2048)?, at_most(fill, 255)?),
        ["L", image] => {
            Seen::of(Drive::load(&bytes(image, 2048)?).map(|loaded| *kept = Kept::of(loaded)))
        }
        ["T", start] => Seen::of_answer(drive.totals(unsigned(start)?).map(print_totals)),
        ["U"] => Seen::of_answer(drive.refuse_unsound().map(|()| print_map(&kept.used))),
        ["V"] => Seen::of_answer(Ok(raw::print(drive))),
        ["X"] => Seen::of_answer(print_image(drive)),
        [name, ..] if CALLS.contains(name) => return Err(format!("{name}: missing or extra word")),
        _ => return Err(format!("not a call: {:?}", words.join(" "))),
    })
}

fn call_string(kept: &mut Kept, string: &[u8], size: u32, fill: u32) -> Seen {
    let mut buffer = vec![fill as u8; size as usize];
    let result = kept.used.string(&mut kept.drive, string, &mut buffer);
    let answer = result.ok().flatten().map(|length| shown(&buffer[..length]));
    Seen { refusal: result.err(), answer, buffer: Some(weighted_sum(&buffer)), wait: None }
}

fn call_image(drive: &Drive, size: u32, fill: u32) -> Seen {
    let mut buffer = vec![fill as u8; size as usize];
    let result = drive.image(&mut buffer);
    let answer = result.ok().map(|length| length.to_string());
    Seen { refusal: result.err(), answer, buffer: Some(weighted_sum(&buffer)), wait: None }
}

/// The bytes of the drive's image, in lower-case hex.
fn print_image(drive: &Drive) -> Result<String, u8> {
    let mut buffer = [0; 2048];
    let length = drive.image(&mut buffer)?;
    Ok(buffer[..length].iter().map(|byte| format!("{byte:02x}")).collect())
}

fn call_raw(kept: &mut Kept, written: Option<Drive>) -> Seen {
    let answer = match written {
        None => "unrepresentable",
        Some(written) => {
            *kept = Kept::of(written);
            if kept.drive.sound() {
                "sound"
            } else {
                "unsound"
            }
        }
    };
    Seen::of_answer(Ok(answer.to_string()))
}

impl Seen {
    fn of(result: Result<(), u8>) -> Seen {
        Seen { refusal: result.err(), ..Seen::default() }
    }

    fn of_answer(result: Result<String, u8>) -> Seen {
        Seen { refusal: result.clone().err(), answer: result.ok(), ..Seen::default() }
    }

    fn of_wait(result: Result<(End, u32), u8>) -> Seen {
        Seen { refusal: result.err(), wait: result.ok(), ..Seen::default() }
    }

    /// Seven words: refusal, answer, buffer, end, count, order, outputs.
    fn print(&self, drive: &Drive) -> String {
        let refusal = or_dash(self.refusal);
        let answer = or_dash(self.answer.as_ref());
        let buffer = or_dash(self.buffer);
        let end = or_dash(self.wait.map(|(end, _)| match end {
            End::Idle => "idle",
            End::Moving => "moving",
            End::Spent => "spent",
        }));
        let count = or_dash(self.wait.map(|(_, count)| count));
        let (order, outputs) = (order(drive), outputs(drive));
        format!("{refusal} {answer} {buffer} {end} {count} {order} {outputs}\n")
    }
}

fn or_dash(value: Option<impl ToString>) -> String {
    value.map_or("-".to_string(), |value| value.to_string())
}

fn order(drive: &Drive) -> String {
    let supply = |current, cu, fc| format!("{current},{},{}", u8::from(cu), u8::from(fc));
    match drive.order() {
        Err(refusal) => format!("!{refusal}"),
        Ok(Order::Stand { current, cu, fc }) => format!("stand:{}", supply(current, cu, fc)),
        Ok(Order::Slow { current, cu, fc }) => format!("slow:{}", supply(current, cu, fc)),
        Ok(Order::Run { forward, hertz, ramp, remaining, current, cu, fc }) => {
            let sign = if forward { '+' } else { '-' };
            format!("run:{sign},{hertz},{ramp},{remaining:+},{}", supply(current, cu, fc))
        }
    }
}

/// `net,ms`, the net steps signed.
fn print_totals(totals: Totals) -> String {
    format!("{:+},{}", totals.net, totals.delay)
}

/// Cells 100 to 230 from the highest bit on, 1 for a used cell, then one 0 bit: 33 hex digits.
fn print_map(used: &UsedCells) -> String {
    let cells = (Drive::FIRST..=Drive::LAST).map(|address| used.has(address));
    let bits: Vec<bool> = cells.chain([false]).collect();
    let digit = |four: &[bool]| four.iter().fold(0, |digit, on| 2 * digit + u32::from(*on));
    bits.chunks(4).map(|four| format!("{:x}", digit(four))).collect()
}

/// O0 to O3, F0 to F7, FC, CU.
fn outputs(drive: &Drive) -> String {
    let outputs = drive.outputs;
    let bits = outputs.o.into_iter().chain(outputs.f).chain([outputs.fc, outputs.cu]);
    bits.map(|on| if on { '1' } else { '0' }).collect()
}

/// 33 to 126 except the backslash as they are, others as `\xNN`.
fn shown(bytes: &[u8]) -> String {
    let show = |&byte: &u8| match byte {
        b'\\' => "\\x5c".to_string(),
        33..=126 => char::from(byte).to_string(),
        _ => format!("\\x{byte:02x}"),
    };
    bytes.iter().map(show).collect()
}

/// The sum of (i + 1) × b[i], modulo 1000003.
pub fn weighted_sum(bytes: &[u8]) -> u64 {
    (1..).zip(bytes).fold(0, |sum, (weight, &byte)| (sum + weight * u64::from(byte)) % 1_000_003)
}

fn at_most(word: &str, most: u32) -> Result<u32, String> {
    match unsigned(word)? {
        value if value <= most => Ok(value),
        value => Err(format!("{value} is above {most}")),
    }
}

/// Bytes in lower-case hex, `-` for none, at most so many.
pub(crate) fn bytes(word: &str, most: usize) -> Result<Vec<u8>, String> {
    if word == "-" {
        return Ok(Vec::new());
    }
    let wrong = || format!("not 1 to {most} bytes in lower-case hex: {word:?}");
    if word.is_empty() || word.len() % 2 == 1 || word.len() > 2 * most {
        return Err(wrong());
    }
    let pairs = word.as_bytes().chunks(2);
    pairs
        .map(|pair| Some(16 * nibble(pair[0])? + nibble(pair[1])?))
        .collect::<Option<_>>()
        .ok_or_else(wrong)
}

fn nibble(digit: u8) -> Option<u8> {
    match digit {
        b'0'..=b'9' => Some(digit - b'0'),
        b'a'..=b'f' => Some(digit - b'a' + 10),
        _ => None,
    }
}
