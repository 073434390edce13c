//! What an image shows of its numbers, by the table of its fields and nothing else.

use reference::frequency::in_table;
use reference::generate::layout::{self, Field, CAM, CELLS, CODES};

pub const PRESETS: [&str; 5] = ["AD", "IN", "RS", "ES", "CM"];

/// The ends that fields of a whole image stand at, or the first fault of another. A field is named
/// by its preset, or by its code and its place after it.
pub fn judged(bytes: &[u8]) -> Result<Vec<String>, String> {
    judged_by(CODES, bytes)
}

/// The first fault to a gateway of before 02's Slip 6. 01: "65 nnn (0 to 65,535)"
pub fn fault_before(bytes: &[u8]) -> Option<String> {
    let before: Codes = CODES.map(|(code, fields)| match code {
        65 => (code, &[Field::Within(0, 65_535), Field::Next][..]),
        _ => (code, fields),
    });
    judged_by(before, bytes).err()
}

/// What follows each code.
type Codes = [(u64, &'static [Field]); 20];

fn judged_by(codes: Codes, bytes: &[u8]) -> Result<Vec<String>, String> {
    let mut image = Image { codes, rest: bytes, ends: vec![] };
    for (name, field) in PRESETS.iter().zip(layout::PRESETS) {
        image.field(name, field)?;
    }
    for _ in 0..CELLS {
        image.cell()?;
    }
    if !image.rest.is_empty() {
        return Err("after the end".to_string());
    }
    Ok(image.ends)
}

struct Image<'a> {
    codes: Codes,
    rest: &'a [u8],
    ends: Vec<String>,
}

impl Image<'_> {
    fn cell(&mut self) -> Result<(), String> {
        let code = self.number()?;
        let (_, fields) = self.codes.into_iter().find(|row| row.0 == code).ok_or("unknown code")?;
        let mut numbers = vec![];
        for (place, field) in (1..).zip(fields) {
            numbers.push(self.field(&format!("{code}.{place}"), *field)?);
        }
        if code == CAM && numbers[0] == 0 && numbers[1] != 0 {
            return Err("unset cam with a number".to_string());
        }
        Ok(())
    }

    fn field(&mut self, name: &str, field: Field) -> Result<u64, String> {
        let number = self.number()?;
        let (low, high) = match field {
            Field::Within(low, high) => (low, high),
            Field::Next => (100, 230),
            Field::Frequency if u16::try_from(number).is_ok_and(in_table) => (1, 4_800),
            Field::Frequency => return Err(format!("{name} not in the table")),
            Field::Code => panic!("a code is no field"),
        };
        match number {
            0 if field == Field::Next => self.ends.push(format!("{name} 000")),
            _ if number < low => return Err(format!("{name} below")),
            _ if number > high => return Err(format!("{name} above")),
            _ => {}
        }
        if number == low {
            self.ends.push(format!("{name} lowest"));
        }
        if number == high {
            self.ends.push(format!("{name} highest"));
        }
        Ok(number)
    }

    fn number(&mut self) -> Result<u64, String> {
        let last = self.rest.iter().position(|group| *group < 128).ok_or("cut")?;
        let (groups, rest) = self.rest.split_at(last + 1);
        self.rest = rest;
        if last > 0 && groups[last] == 0 {
            return Err("longer form".to_string());
        }
        let number =
            groups.iter().rev().fold(0, |number, group| number << 7 | u64::from(group & 127));
        if last > 4 || number > u32::MAX.into() {
            return Err("too large".to_string());
        }
        Ok(number)
    }
}
