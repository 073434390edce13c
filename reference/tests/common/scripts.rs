//! Scripts taken apart: each line as a call, and what was seen of it on a drive.

use reference::frequency::round_frequency;
use reference::image::LONGEST;
use reference::memory::Drive;
use reference::raw;
use reference::totals::Totals;
use reference::wait::End;

#[derive(Clone, Debug, PartialEq)]
pub enum Call {
    Fresh(u32),
    String { bytes: Vec<u8>, length: usize, fill: u8 },
    Inputs(u32),
    Millisecond,
    Step,
    AtSpeed,
    Halted,
    Wait(u32),
    Order,
    Rounding(u32),
    Reading,
    Raw(Vec<String>),
    Image { length: usize, fill: u8 },
    Load(Vec<u8>),
    Totals(u32),
    Map,
    Record,
    ImageBytes,
}

/// What one call showed. `answer` is its length, `buffer` the whole buffer afterwards, of a string
/// or an image.
#[derive(Default, Debug, PartialEq)]
pub struct Seen {
    pub refusal: Option<u8>,
    pub answer: Option<usize>,
    pub buffer: Vec<u8>,
    pub wait: Option<(End, u32)>,
    pub totals: Option<Totals>,
}

/// One call of a script with the drive on both sides of it.
pub struct Moment<'a> {
    pub call: &'a Call,
    pub before: &'a Drive,
    pub after: &'a Drive,
    pub seen: &'a Seen,
}

/// Shows every call of some scripts. The first call of a script stands on a fresh drive of address
/// 0.
pub fn walk(scripts: &[Vec<Call>], mut visit: impl FnMut(Moment)) {
    for script in scripts {
        let mut drive = Drive::fresh(0).expect("01 takes address 0");
        for call in script {
            let before = drive;
            let seen = carry_out(&mut drive, call);
            visit(Moment { call, before: &before, after: &drive, seen: &seen });
        }
    }
}

/// The calls of a script.
pub fn calls(script: &str) -> Vec<Call> {
    script.lines().filter(|line| !line.starts_with('#')).map(parse).collect()
}

fn parse(line: &str) -> Call {
    let words: Vec<&str> = line.split(' ').collect();
    let number = |place: usize| words[place].parse().expect("a number");
    match words[0] {
        "F" => Call::Fresh(number(1)),
        "S" => Call::String {
            bytes: bytes(words[1]),
            length: number(2) as usize,
            fill: words[3].parse().expect("a byte"),
        },
        "I" => Call::Inputs(number(1)),
        "M" => Call::Millisecond,
        "P" => Call::Step,
        "A" => Call::AtSpeed,
        "H" => Call::Halted,
        "W" => Call::Wait(number(1)),
        "B" => Call::Order,
        "R" => Call::Rounding(number(1)),
        "Q" => Call::Reading,
        "K" => Call::Raw(words[1..].iter().map(|word| word.to_string()).collect()),
        "O" => Call::Image { length: number(1) as usize, fill: words[2].parse().expect("a byte") },
        "L" => Call::Load(bytes(words[1])),
        "T" => Call::Totals(number(1)),
        "U" => Call::Map,
        "V" => Call::Record,
        "X" => Call::ImageBytes,
        _ => panic!("no call in `{line}`"),
    }
}

fn bytes(hex: &str) -> Vec<u8> {
    let digits = hex.trim_matches('-').as_bytes().chunks(2);
    let byte = |pair| u8::from_str_radix(std::str::from_utf8(pair).unwrap(), 16);
    digits.map(|pair| byte(pair).expect("two hex digits")).collect()
}

/// One call, and what it showed.
pub fn carry_out(drive: &mut Drive, call: &Call) -> Seen {
    match call {
        Call::Fresh(address) => plain(Drive::fresh(*address).map(|fresh| *drive = fresh)),
        Call::String { bytes, length, fill } => say(drive, bytes, *length, *fill),
        Call::Inputs(word) => plain(drive.inputs(*word)),
        Call::Millisecond => plain(drive.millisecond()),
        Call::Step => plain(drive.step()),
        Call::AtSpeed => plain(drive.at_speed()),
        Call::Halted => plain(drive.halted()),
        Call::Wait(budget) => waited(drive.wait(*budget)),
        Call::Order => plain(drive.order().map(drop)),
        Call::Rounding(value) => plain(round_frequency(*value).map(drop)),
        Call::Reading => plain(read(drive)),
        Call::Raw(words) => write_raw(drive, words),
        Call::Image { length, fill } => save(drive, *length, *fill),
        Call::Load(bytes) => plain(Drive::load(bytes).map(|loaded| *drive = loaded)),
        Call::Totals(start) => summed(drive.totals(*start)),
        // The map stands beside the drive: only the refusal is the drive's.
        Call::Map => plain(drive.order().map(drop)),
        Call::Record => Seen::default(),
        Call::ImageBytes => plain(drive.image(&mut [0; LONGEST]).map(drop)),
    }
}

fn plain(result: Result<(), u8>) -> Seen {
    Seen { refusal: result.err(), ..Seen::default() }
}

fn say(drive: &mut Drive, bytes: &[u8], length: usize, fill: u8) -> Seen {
    let mut buffer = vec![fill; length];
    let result = drive.string(bytes, &mut buffer);
    Seen { refusal: result.err(), answer: result.ok().flatten(), buffer, ..Seen::default() }
}

fn save(drive: &Drive, length: usize, fill: u8) -> Seen {
    let mut buffer = vec![fill; length];
    let result = drive.image(&mut buffer);
    Seen { refusal: result.err(), answer: result.ok(), buffer, ..Seen::default() }
}

fn waited(result: Result<(End, u32), u8>) -> Seen {
    Seen { refusal: result.err(), wait: result.ok(), ..Seen::default() }
}

fn summed(result: Result<Totals, u8>) -> Seen {
    Seen { refusal: result.err(), totals: result.ok(), ..Seen::default() }
}

/// The first request stands for all 165, which are refused alike and change nothing.
fn read(drive: &mut Drive) -> Result<(), u8> {
    let request = format!("{:02}QM,100\r", drive.presets.address);
    drive.string(request.as_bytes(), &mut [0; 64]).map(drop)
}

/// Writes the field if the record can hold the value; a raw write is never refused.
fn write_raw(drive: &mut Drive, words: &[String]) -> Seen {
    let words: Vec<&str> = words.iter().map(String::as_str).collect();
    if let Some(written) = raw::write(drive, &words).expect("a well-formed raw write") {
        *drive = written;
    }
    Seen::default()
}
