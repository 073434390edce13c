//! 01, "Instructions": the 20 codes as text, read from the fields of a WN and printed as QM shows
//! them.

use crate::fields::{Field, Fields, Form, Format, Range};
use crate::frequency::round_frequency;
use crate::instruction::*;
use crate::reasons::Wrong;
use Instruction::*;

impl Cell {
    /// Reads the fields of a WN after its cell: code, parameters, next. 01: "Code 69 has no DDD,
    /// and its string ends after the 69."
    pub fn parse<'a>(fields: &[&'a [u8]]) -> Result<Cell, Wrong<'a>> {
        let [code, texts @ ..] = fields else { return Err(Wrong::Short { has: 1 }) };
        let format = Format::of(code, &FORMATS).ok_or(Wrong::Instruction(code))?;
        // Fields 1 and 2 are BBB and CC.
        let mut fields = format.fields(3, texts)?;
        let instruction = (format.read)(&mut fields)?;
        let next = match instruction {
            Recovery => 0,
            _ => fields.take().digits(3, NEXT)?,
        };
        Ok(Cell { instruction, next })
    }

    /// The cell as QM shows it after the cell's address.
    pub fn print(&self) -> String {
        let text = print_instruction(self.instruction);
        match self.instruction {
            Recovery => text,
            _ => format!("{text},{:03}", self.next),
        }
    }
}

/// The fields of each code after CC, in the order of the codes.
pub const FORMATS: [Format<Instruction>; 20] = [
    Format::new("00", &["DDD"], |_| Ok(Null)),
    Format::new("01", &["FF", "RR", "n", "XX", "DDD"], |f| {
        Ok(IndexedRamp {
            frequency: thousands(f)?,
            ramp: ramp(f)?,
            steps: steps(f)?,
            x4: multiplier(f)?,
        })
    }),
    Format::new("02", &["FF", "RR", "s", "XX", "DDD"], |f| {
        Ok(FreeRamp {
            frequency: thousands(f)?,
            ramp: ramp(f)?,
            forward: sign(f)?,
            x4: multiplier(f)?,
        })
    }),
    Format::new("03", &["FF", "RR", "s", "LL", "DDD"], |f| {
        Ok(ZeroSearch {
            frequency: thousands(f)?,
            ramp: ramp(f)?,
            forward: sign(f)?,
            slow: hundreds(f)?,
        })
    }),
    Format::new("05", &["FF", "RR", "s", "nnn", "XX", "DDD"], |f| {
        Ok(DelayedStop {
            frequency: thousands(f)?,
            ramp: ramp(f)?,
            forward: sign(f)?,
            steps: f.take().number(STEPS_AFTER)?,
            x4: multiplier(f)?,
        })
    }),
    Format::new("11", &["FF", "n", "XX", "DDD"], |f| {
        Ok(Indexed { frequency: hundreds(f)?, steps: steps(f)?, x4: multiplier(f)? })
    }),
    Format::new("12", &["FF", "s", "XX", "DDD"], |f| {
        Ok(Free { frequency: hundreds(f)?, forward: sign(f)?, x4: multiplier(f)? })
    }),
    Format::new("21", &["FFFF", "n", "XX", "DDD"], |f| {
        Ok(IndexedFine {
            frequency: stored_frequency(f.take())?,
            steps: steps(f)?,
            x4: multiplier(f)?,
        })
    }),
    Format::new("22", &["FFFF", "s", "XX", "DDD"], |f| {
        Ok(FreeFine {
            frequency: stored_frequency(f.take())?,
            forward: sign(f)?,
            x4: multiplier(f)?,
        })
    }),
    Format::new("31", &["FFF", "RR", "n", "XX", "DDD"], |f| {
        Ok(IndexedRampFine {
            frequency: fine(f)?,
            ramp: ramp(f)?,
            steps: steps(f)?,
            x4: multiplier(f)?,
        })
    }),
    Format::new("32", &["FFF", "RR", "s", "XX", "DDD"], |f| {
        Ok(FreeRampFine {
            frequency: fine(f)?,
            ramp: ramp(f)?,
            forward: sign(f)?,
            x4: multiplier(f)?,
        })
    }),
    Format::new("57", &["V", "±nnn", "DDD"], |f| {
        Ok(stored_cam(f.take().bit()?, f.take().signed(Range::SIGNED_32)?))
    }),
    Format::new("58", &["OO", "V", "DDD"], |f| {
        Ok(OutputSetting { output: f.take().name(SETTABLE)? as u8, on: f.take().bit()? })
    }),
    Format::new("60", &["DDD"], |_| Ok(CounterReset)),
    Format::new("61", &["nnn", "DDD"], |f| Ok(OpeningLoop { count: f.take().number(LOOP_COUNT)? })),
    Format::new("62", &["EEE", "DDD"], |f| Ok(ClosingLoop { jump: f.take().digits(3, ADDRESS)? })),
    Format::new("63", &["II", "V", "EEE", "DDD"], |f| {
        Ok(ConditionalJump {
            input: f.take().name(&CONDITIONS)? as u8,
            on: f.take().bit()?,
            jump: f.take().digits(3, ADDRESS)?,
        })
    }),
    Format::new("65", &["nnn", "DDD"], |f| Ok(TimeDelay { milliseconds: f.take().number(DELAY)? })),
    Format::new("69", &[], |_| Ok(Recovery)),
    Format::new("70", &["S", "DDD"], |f| Ok(CurrentSetting { on: f.take().bit()? })),
];

fn thousands<'a>(fields: &mut Fields<'a, '_>) -> Result<u8, Wrong<'a>> {
    fields.take().digits(2, THOUSANDS)
}

fn hundreds<'a>(fields: &mut Fields<'a, '_>) -> Result<u8, Wrong<'a>> {
    fields.take().digits(2, HUNDREDS)
}

fn fine<'a>(fields: &mut Fields<'a, '_>) -> Result<u8, Wrong<'a>> {
    fields.take().digits(3, FINE)
}

fn ramp<'a>(fields: &mut Fields<'a, '_>) -> Result<u8, Wrong<'a>> {
    fields.take().digits(2, RAMP)
}

fn steps<'a>(fields: &mut Fields<'a, '_>) -> Result<i32, Wrong<'a>> {
    fields.take().signed(STEPS)
}

fn sign<'a>(fields: &mut Fields<'a, '_>) -> Result<bool, Wrong<'a>> {
    fields.take().sign()
}

fn multiplier<'a>(fields: &mut Fields<'a, '_>) -> Result<bool, Wrong<'a>> {
    fields.take().multiplier()
}

/// 01: "FFFF 0001 to 4800 is stored as the greatest table value not above it."
fn stored_frequency(field: Field) -> Result<u16, Wrong> {
    let value = field.digits(4, FREQUENCY)?;
    round_frequency(value).map_err(|_| Wrong::Range(field, Form::Digits(4), FREQUENCY))
}

/// 01: "stored +0 for V=0"
fn stored_cam(set: bool, position: i32) -> Instruction {
    CamSetting { set, position: if set { position } else { 0 } }
}

/// 01: "Answers print nnn without leading zeros, zero as `+0` where signed."
fn print_instruction(instruction: Instruction) -> String {
    let s = |forward| if forward { "+" } else { "-" };
    let x = |x4| if x4 { "x4" } else { "x1" };
    let v = |on| if on { 1 } else { 0 };
    match instruction {
        Null => "00".to_string(),
        IndexedRamp { frequency, ramp, steps, x4 } => {
            format!("01,{frequency:02},{ramp:02},{steps:+},{}", x(x4))
        }
        FreeRamp { frequency, ramp, forward, x4 } => {
            format!("02,{frequency:02},{ramp:02},{},{}", s(forward), x(x4))
        }
        ZeroSearch { frequency, ramp, forward, slow } => {
            format!("03,{frequency:02},{ramp:02},{},{slow:02}", s(forward))
        }
        DelayedStop { frequency, ramp, forward, steps, x4 } => {
            format!("05,{frequency:02},{ramp:02},{},{steps},{}", s(forward), x(x4))
        }
        Indexed { frequency, steps, x4 } => format!("11,{frequency:02},{steps:+},{}", x(x4)),
        Free { frequency, forward, x4 } => format!("12,{frequency:02},{},{}", s(forward), x(x4)),
        IndexedFine { frequency, steps, x4 } => format!("21,{frequency:04},{steps:+},{}", x(x4)),
        FreeFine { frequency, forward, x4 } => {
            format!("22,{frequency:04},{},{}", s(forward), x(x4))
        }
        IndexedRampFine { frequency, ramp, steps, x4 } => {
            format!("31,{frequency:03},{ramp:02},{steps:+},{}", x(x4))
        }
        FreeRampFine { frequency, ramp, forward, x4 } => {
            format!("32,{frequency:03},{ramp:02},{},{}", s(forward), x(x4))
        }
        CamSetting { set, position } => format!("57,{},{position:+}", v(set)),
        OutputSetting { output, on } => format!("58,{},{}", SETTABLE[output as usize], v(on)),
        CounterReset => "60".to_string(),
        OpeningLoop { count } => format!("61,{count}"),
        ClosingLoop { jump } => format!("62,{jump:03}"),
        ConditionalJump { input, on, jump } => {
            format!("63,{},{},{jump:03}", CONDITIONS[input as usize], v(on))
        }
        TimeDelay { milliseconds } => format!("65,{milliseconds}"),
        Recovery => "69".to_string(),
        CurrentSetting { on } => format!("70,{}", v(on)),
    }
}
