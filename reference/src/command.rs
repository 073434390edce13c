//! 01, "Strings": what a string asks for, read from the text after its address.

use crate::fields::{Field, Form, Format, Range};
use crate::instruction::{Cell, ADDRESS, SETTABLE};
use crate::memory::{Cam, Resolution, INPUT_NAMES};
use crate::reasons::Wrong;

/// A command, with what it needs to be carried out.
#[derive(Clone, Copy, PartialEq, Eq, Debug)]
pub enum Command {
    /// WN
    Store { address: u8, cell: Cell },
    /// WS
    Set(Preset),
    /// PS
    Start(u8),
    /// EE
    EmergencyStop,
    /// ES
    FreeRunStop,
    /// SA
    Position(i32),
    /// SO, a place in `OUTPUT_NAMES`
    Output { place: usize, on: bool },
    /// SC
    Cam(Cam),
}

/// A request, with what it names.
#[derive(Clone, Copy, PartialEq, Eq, Debug)]
pub enum Request {
    /// QA
    Position,
    /// QS, a place in `PRESET_NAMES`
    Preset(usize),
    /// QI, a place in `INPUT_NAMES`
    Input(usize),
    /// QO, a place in `SHOWN_OUTPUTS`
    Output(usize),
    /// QM
    Cell(u8),
    /// QC
    Cam,
    /// QE
    Fault,
    /// QR
    Suspended,
}

#[derive(Clone, Copy, PartialEq, Eq, Debug)]
pub enum Asked {
    Command(Command),
    Request(Request),
}

/// One preset and its value.
#[derive(Clone, Copy, PartialEq, Eq, Debug)]
pub enum Preset {
    Address(u8),
    Current(u8),
    Resolution(Resolution),
    StopBlocksStart(bool),
    Absolute(bool),
}

pub const PRESET_NAMES: [&str; 5] = ["AD", "IN", "RS", "ES", "CM"];
const VALUE_NAMES: [&str; 5] =
    ["value of AD", "value of IN", "value of RS", "value of ES", "value of CM"];

/// 01: "QO,name (also BS 0 and FA 1)": `OUTPUT_NAMES`, and then these two.
pub const SHOWN_OUTPUTS: [&str; 16] = [
    "O0", "O1", "O2", "O3", "FC", "F0", "F1", "F2", "F3", "F4", "F5", "F6", "F7", "CU", "BS", "FA",
];

/// 01: "over 64 bytes with the 13"
pub const LONGEST: usize = 64;

/// The commands of 01, in its order, but WN, whose fields go by the code of its instruction.
pub const COMMANDS: [Format<Command>; 7] = [
    Format::new("WS", &["VV", "value"], |f| set(f.take(), f.take())),
    Format::new("PS", &["BBB"], |f| address(f.take()).map(Command::Start)),
    Format::new("EE", &[], |_| Ok(Command::EmergencyStop)),
    Format::new("ES", &[], |_| Ok(Command::FreeRunStop)),
    Format::new("SA", &["nnn"], |f| position(f.take()).map(Command::Position)),
    Format::new("SO", &["OO", "V"], |f| {
        Ok(Command::Output { place: f.take().name(SETTABLE)?, on: f.take().bit()? })
    }),
    Format::new("SC", &["V", "±nnn"], |f| cam(f.take(), f.take())),
];

/// The requests of 01, in its order.
pub const REQUESTS: [Format<Request>; 8] = [
    Format::new("QA", &[], |_| Ok(Request::Position)),
    Format::new("QS", &["VV"], |f| f.take().name(&PRESET_NAMES).map(Request::Preset)),
    Format::new("QI", &["name"], |f| f.take().name(&INPUT_NAMES).map(Request::Input)),
    Format::new("QO", &["name"], |f| f.take().name(&SHOWN_OUTPUTS).map(Request::Output)),
    Format::new("QM", &["BBB"], |f| address(f.take()).map(Request::Cell)),
    Format::new("QC", &[], |_| Ok(Request::Cam)),
    Format::new("QE", &[], |_| Ok(Request::Fault)),
    Format::new("QR", &[], |_| Ok(Request::Suspended)),
];

/// Check 5. 01: "(5) over 64 bytes with the 13, unknown code, wrong fields or range: `AAN`";
/// "Fields are parted by one comma"
pub fn parse(text: &[u8]) -> Result<Asked, Wrong<'_>> {
    // The address has two bytes, and the 13 is one.
    if text.len() + 3 > LONGEST {
        return Err(Wrong::Long);
    }
    let parts: Vec<&[u8]> = text.split(|&byte| byte == b',').collect();
    match *parts {
        [b"WN", ref fields @ ..] => store(fields).map(Asked::Command),
        // 01: "`AASC,0` may end there"
        [b"SC", b"0"] => Ok(Asked::Command(Command::Cam(Cam::UNSET))),
        [code, ref fields @ ..] => listed(code, fields),
        [] => Err(Wrong::Code(text)),
    }
}

fn listed<'a>(code: &'a [u8], texts: &[&'a [u8]]) -> Result<Asked, Wrong<'a>> {
    if let Some(format) = Format::of(code, &COMMANDS) {
        return (format.read)(&mut format.fields(1, texts)?).map(Asked::Command);
    }
    let format = Format::of(code, &REQUESTS).ok_or(Wrong::Code(code))?;
    (format.read)(&mut format.fields(1, texts)?).map(Asked::Request)
}

/// 01: "`AAWN,BBB,CC,..,DDD`"
fn store<'a>(fields: &[&'a [u8]]) -> Result<Command, Wrong<'a>> {
    let [cell, _, ..] = fields else { return Err(Wrong::Short { has: fields.len() }) };
    Ok(Command::Store { address: address(first_cell(cell))?, cell: Cell::parse(&fields[1..])? })
}

/// BBB as field 1.
pub(crate) fn first_cell(text: &[u8]) -> Field<'_> {
    Field { number: 1, name: "BBB", text }
}

/// 01: "BBB is 100 to 230"
pub(crate) fn address(field: Field) -> Result<u8, Wrong> {
    field.digits(3, ADDRESS)
}

/// 01: "IN 0 to 3 ..; RS one of D0 to D3, B0 to B3 ..; ES 0 or 1 ..; CM 0 (relative) or 1
/// (absolute)"
fn set<'a>(name: Field<'a>, value: Field<'a>) -> Result<Command, Wrong<'a>> {
    let place = name.name(&PRESET_NAMES)?;
    let value = Field { name: VALUE_NAMES[place], ..value };
    let number = |most| value.number::<u8>(Range::new(0, most));
    Ok(Command::Set(match place {
        0 => Preset::Address(number(47)?),
        1 => Preset::Current(number(3)?),
        2 => Preset::Resolution(resolution(value)?),
        3 => Preset::StopBlocksStart(number(1)? == 1),
        _ => Preset::Absolute(number(1)? == 1),
    }))
}

fn resolution(value: Field) -> Result<Resolution, Wrong> {
    let place = value.name(&Resolution::NAMES)?;
    Resolution::at(place).ok_or(Wrong::Form(value, Form::Name(&Resolution::NAMES)))
}

/// 01: "`AASA,nnn`, sign optional"; "both numbers 32 bits signed"
fn position(field: Field) -> Result<i32, Wrong> {
    field.signed_or_not(Range::SIGNED_32)
}

fn cam<'a>(set: Field<'a>, position: Field<'a>) -> Result<Command, Wrong<'a>> {
    let (set, position) = (set.bit()?, position.signed(Range::SIGNED_32)?);
    Ok(Command::Cam(if set { Cam { set, position } } else { Cam::UNSET }))
}
