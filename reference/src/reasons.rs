//! Why a string gets N or no answer, in words of the manual and of 01. What is wrong is found by
//! the parser and only said here. No sentence ends in a full stop; each says what is taken instead.

use crate::command::{COMMANDS, REQUESTS};
use crate::fields::{Field, Form, Range};
use crate::format::FORMATS;
use crate::memory::{Phase, Remaining, Running};
use std::fmt::{self, Display, Formatter};

/// What becomes of a string.
#[derive(Clone, PartialEq, Eq, Debug)]
pub enum Explanation {
    /// Heard and carried out, and answered.
    Taken,
    /// Answered N, and why.
    Rejected(String),
    /// Not answered, and why. Only a string for all drives may have been carried out.
    Silent(String),
}

/// What is wrong with a string that was heard.
#[derive(Clone, Copy, PartialEq, Eq, Debug)]
pub enum Wrong<'a> {
    Long,
    /// No command or request.
    Code(&'a [u8]),
    /// No code of an instruction.
    Instruction(&'a [u8]),
    /// A WN without BBB or without CC: so many fields.
    Short {
        has: usize,
    },
    Count(Count),
    Form(Field<'a>, Form),
    Range(Field<'a>, Form, Range),
    /// PS with input EE on.
    EmergencyInput,
}

/// Too many fields, or too few: after a code there stand so many, and these are its names.
#[derive(Clone, Copy, PartialEq, Eq, Debug)]
pub struct Count {
    pub code: &'static str,
    pub names: &'static [&'static str],
    /// The fields before those with names: two where the code is that of an instruction.
    pub before: usize,
    pub has: usize,
    pub ends_empty: bool,
}

/// Why a string isn't heard.
#[derive(Clone, Copy, PartialEq, Eq, Debug)]
pub enum Silent {
    Empty,
    Unended,
    NoAddress { own: u8 },
    OtherAddress { address: u8, own: u8 },
    Busy(Running),
    NotForAll,
}

impl Explanation {
    pub(crate) fn carried_out_for_all() -> Explanation {
        Explanation::Silent("carried out; address 99 is never answered".to_string())
    }

    pub(crate) fn wrong_for_all(wrong: Wrong) -> Explanation {
        Explanation::Silent(format!("{wrong}; address 99 is never answered"))
    }

    /// The sentence, empty where there is nothing to explain.
    pub fn sentence(&self) -> &str {
        match self {
            Explanation::Taken => "",
            Explanation::Rejected(sentence) | Explanation::Silent(sentence) => sentence,
        }
    }
}

impl Display for Wrong<'_> {
    fn fmt(&self, f: &mut Formatter) -> fmt::Result {
        match *self {
            Wrong::Long => {
                write!(f, "the string has over 64 bytes with its 13, and 64 is the most")
            }
            Wrong::Code(code) => write_code(f, code),
            Wrong::Instruction(code) => write_instruction_code(f, code),
            Wrong::Short { has } => write!(
                f,
                "WN takes 2 fields at least, BBB,CC,..,DDD, and the string has {}",
                or_none(has)
            ),
            Wrong::Count(count) => {
                write_count(f, count)?;
                write_count_hint(f, count)
            }
            Wrong::Form(field, form) => write_form(f, field, form),
            Wrong::Range(field, form, range) => write_range(f, field, form, range),
            Wrong::EmergencyInput => {
                write!(f, "input EE is on, and PS is taken with EE off only")
            }
        }
    }
}

impl Display for Silent {
    fn fmt(&self, f: &mut Formatter) -> fmt::Result {
        match *self {
            Silent::Empty => write!(f, "the string is empty"),
            Silent::Unended => write!(f, "the last byte is not 13, which ends a string"),
            Silent::NoAddress { own } => write!(
                f,
                "the first two characters are not digits: a string begins with the drive's \
                 address, {own:02}"
            ),
            Silent::OtherAddress { address, own } => {
                write!(f, "the string is for address {address:02}, and this drive has {own:02}")
            }
            Silent::Busy(running) => {
                write!(
                    f,
                    "the drive is busy with {}, and hears only EE and ES",
                    occupation(running)
                )
            }
            Silent::NotForAll => write!(
                f,
                "address 99 is for all drives, which carry out WS, EE and ES alone and never answer"
            ),
        }
    }
}

/// `XY is no command or request: ..`, with what may have been meant.
fn write_code(f: &mut Formatter, code: &[u8]) -> fmt::Result {
    match code {
        [] => write!(f, "the string has no code after its address: ")?,
        _ => write!(f, "{} is no command or request: ", shown(code))?,
    }
    if let Some(hint) = code_hint(code) {
        write!(f, "{hint}; ")?;
    }
    let commands = listed(commands().map(|(code, _)| code.to_string()));
    let requests = listed(requests().map(|(code, _)| code.to_string()));
    write!(f, "commands are {commands}, requests {requests}")
}

/// What may have been meant by a code that is none.
fn code_hint(code: &[u8]) -> Option<String> {
    if code.contains(&b' ') {
        return Some(NO_SPACE.to_string());
    }
    let capital = code.to_ascii_uppercase();
    let known =
        commands().chain(requests()).find(|(known, _)| capital.starts_with(known.as_bytes()));
    known.map(|(known, fields)| match fields {
        _ if !code.starts_with(known.as_bytes()) => format!("codes are capital letters ({known})"),
        false => format!("nothing stands after {known}"),
        true => format!("a comma stands after {known}"),
    })
}

/// The codes of commands, and whether fields stand after them.
fn commands() -> impl Iterator<Item = (&'static str, bool)> {
    let others = COMMANDS.iter().map(|format| (format.code, !format.names.is_empty()));
    [("WN", true)].into_iter().chain(others)
}

fn requests() -> impl Iterator<Item = (&'static str, bool)> {
    REQUESTS.iter().map(|format| (format.code, !format.names.is_empty()))
}

fn write_instruction_code(f: &mut Formatter, code: &[u8]) -> fmt::Result {
    let codes = listed(FORMATS.iter().map(|format| format.code.to_string()));
    if code.is_empty() {
        return write!(f, "field 2 (CC) is empty, and one of {codes} is taken");
    }
    write!(f, "{} is no instruction code: field 2 (CC) is one of {codes}", shown(code))?;
    write_space_hint(f, code)
}

/// `code 01 takes 7 fields, BBB,01,FF,RR,n,XX,DDD, and the string has 6`
fn write_count(f: &mut Formatter, count: Count) -> fmt::Result {
    let Count { code, names, before, has, .. } = count;
    let (kind, front) = match before {
        0 => ("", vec![]),
        _ => ("code ", vec!["BBB", code]),
    };
    let fields = [&front, names].concat();
    write!(f, "{kind}{code} takes ")?;
    match fields.len() {
        0 => write!(f, "no field")?,
        1 => write!(f, "1 field, {}", fields[0])?,
        count => write!(f, "{count} fields, {}", fields.join(","))?,
    }
    write!(f, ", and the string has {}", or_none(before + has))
}

/// A comma too many, and the two codes that end early.
fn write_count_hint(f: &mut Formatter, count: Count) -> fmt::Result {
    let too_many = count.has > count.names.len();
    match (count.code, count.before + count.has) {
        (_, 1) if too_many && count.ends_empty => write!(f, ", which is empty"),
        _ if too_many && count.ends_empty => write!(f, ", of which the last is empty"),
        ("69", _) => write!(f, ": a 69 has no DDD"),
        ("SC", 1) => write!(f, ": only SC,0 may end there"),
        _ => Ok(()),
    }
}

/// `field 3 (FF) has exactly 2 digits, and 5 is not that`
fn write_form(f: &mut Formatter, field: Field, form: Form) -> fmt::Result {
    let Field { number, name, text } = field;
    let (has, taken) = form_words(form);
    if text.is_empty() {
        let verb = if has { "are" } else { "is" };
        return write!(f, "field {number} ({name}) is empty, and {taken} {verb} taken");
    }
    let verb = if has { "has" } else { "is" };
    write!(f, "field {number} ({name}) {verb} {taken}, and {} is not that", shown(text))?;
    write_space_hint(f, text)
}

/// The words for a form, and whether a field has it or is it.
fn form_words(form: Form) -> (bool, String) {
    let is = |words: &str| (false, words.to_string());
    match form {
        Form::Digits(width) => (true, format!("exactly {width} digits")),
        Form::Number => (true, "1 to 10 digits".to_string()),
        Form::Signed => is("a sign and 1 to 10 digits"),
        Form::SignedOrNot => is("an optional sign and 1 to 10 digits"),
        Form::Sign => is("+ or -"),
        Form::Bit => is("0 or 1"),
        Form::Multiplier => is("x1 or x4"),
        Form::Name(names) => (false, format!("one of {}", listed(spans(names).into_iter()))),
    }
}

/// `field 3 (FF) is out of range: 25, and 03 to 24 is taken`
fn write_range(f: &mut Formatter, field: Field, form: Form, range: Range) -> fmt::Result {
    let Field { number, name, text } = field;
    let limit = |value: i64| match form {
        Form::Digits(width) => format!("{value:0width$}"),
        Form::Signed | Form::SignedOrNot => format!("{value:+}"),
        _ => value.to_string(),
    };
    write!(f, "field {number} ({name}) is out of range: {}, and ", shown(text))?;
    if range.or_zero {
        write!(f, "{} or ", limit(0))?;
    }
    write!(f, "{} to {} is taken", limit(range.low), limit(range.high))?;
    match range {
        Range::SIGNED_32 => write!(f, ", 32 bits signed"),
        _ => Ok(()),
    }
}

const NO_SPACE: &str = "no space is taken anywhere in a string";

fn write_space_hint(f: &mut Formatter, text: &[u8]) -> fmt::Result {
    match text.contains(&b' ') {
        true => write!(f, ": {NO_SPACE}"),
        false => Ok(()),
    }
}

/// What a busy drive is busy with.
fn occupation(running: Running) -> String {
    let Running { cell, phase, remaining, .. } = running;
    match (phase, remaining) {
        (Phase::Waiting, _) => format!("cell {cell} (not yet taken)"),
        (_, Remaining::Milliseconds(left)) => format!("cell {cell} (delay, {left} ms left)"),
        (Phase::Run, _) => format!("a run at cell {cell}"),
        _ => format!("a run at cell {cell} ({})", phase_name(phase)),
    }
}

/// Where a drive is, empty for an idle one.
pub fn whereabouts(running: Running) -> String {
    let Running { cell, phase, remaining, .. } = running;
    match (phase, remaining) {
        _ if cell == 0 => String::new(),
        (Phase::Waiting, _) => format!("cell {cell} is taken next"),
        (_, Remaining::Milliseconds(left)) => {
            format!("cell {cell} is under way (delay, {left} ms left)")
        }
        (Phase::Run, _) => format!("a run is under way at cell {cell}"),
        _ => format!("a run is under way at cell {cell} ({})", phase_name(phase)),
    }
}

/// 01's names of the phases.
pub fn phase_name(phase: Phase) -> &'static str {
    match phase {
        Phase::Waiting => "waiting",
        Phase::Delay => "delay",
        Phase::Run => "run",
        Phase::Braking => "braking",
        Phase::Slowing => "slowing",
        Phase::EmergencySlowing => "emergency slowing",
        Phase::Back => "back",
    }
}

/// The words for a refused call.
pub fn refusal(number: u8) -> &'static str {
    match number {
        2 => "refused by 2: the drive is unsound",
        3 => "refused by 3: the answer buffer has under 64 bytes",
        8 => "refused by 8: a wait has a budget of 1 to 1000000",
        _ => "refused",
    }
}

/// Bytes of a string: those that don't print as `\xNN`, and quoted where there is a space to see.
fn shown(bytes: &[u8]) -> String {
    let show = |&byte: &u8| match byte {
        b'\\' => "\\x5c".to_string(),
        32..=126 => char::from(byte).to_string(),
        _ => format!("\\x{byte:02x}"),
    };
    let text: String = bytes.iter().map(show).collect();
    if bytes.contains(&b' ') {
        return format!("\"{text}\"");
    }
    text
}

fn or_none(count: usize) -> String {
    if count == 0 {
        return "none".to_string();
    }
    count.to_string()
}

/// `AD, IN and RS`
fn listed(words: impl Iterator<Item = String>) -> String {
    let words: Vec<String> = words.collect();
    match words.split_last() {
        Some((last, [])) => last.clone(),
        Some((last, others)) => format!("{} and {last}", others.join(", ")),
        None => String::new(),
    }
}

/// Names in a row as 01 has them: `O0 to O3`.
fn spans(names: &[&str]) -> Vec<String> {
    let follows = |a: &&str, b: &&str| a[..1] == b[..1] && a.as_bytes()[1] + 1 == b.as_bytes()[1];
    let spans = names.chunk_by(follows);
    let words = |span: &[&str]| match span {
        [first, .., last] => format!("{first} to {last}"),
        _ => span.concat(),
    };
    spans.map(words).collect()
}
