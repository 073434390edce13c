//! The fields of a string. Each kind reads one whole field, or says what is wrong with it.

use crate::reasons::{Count, Wrong};

/// One field. It is counted after the code of the string, from 1, and has the name that 01 gives
/// it.
#[derive(Clone, Copy, PartialEq, Eq, Debug)]
pub struct Field<'a> {
    pub number: usize,
    pub name: &'static str,
    pub text: &'a [u8],
}

/// What a field looks like, whatever its value is.
#[derive(Clone, Copy, PartialEq, Eq, Debug)]
pub enum Form {
    /// Exactly so many digits.
    Digits(usize),
    /// 1 to 10 digits.
    Number,
    /// A sign and 1 to 10 digits.
    Signed,
    /// 1 to 10 digits, with or without a sign.
    SignedOrNot,
    Sign,
    Bit,
    Multiplier,
    Name(&'static [&'static str]),
}

/// The values that a field takes; 0 also where they begin above it, if `or_zero` says so.
#[derive(Clone, Copy, PartialEq, Eq, Debug)]
pub struct Range {
    pub low: i64,
    pub high: i64,
    pub or_zero: bool,
}

impl Range {
    /// 01: "32 bits signed"
    pub const SIGNED_32: Range = Range::new(i32::MIN as i64, i32::MAX as i64);

    pub const fn new(low: i64, high: i64) -> Range {
        Range { low, high, or_zero: false }
    }

    pub fn has(&self, value: impl Into<i64>) -> bool {
        let value = value.into();
        self.low <= value && value <= self.high || self.or_zero && value == 0
    }
}

/// What stands after a code: the fields by their names, and how they are read.
pub struct Format<T: 'static> {
    pub code: &'static str,
    pub names: &'static [&'static str],
    pub read: Read<T>,
}

/// Reads the fields of a format, in its order.
type Read<T> = for<'a, 'f> fn(&mut Fields<'a, 'f>) -> Result<T, Wrong<'a>>;

impl<T> Format<T> {
    pub const fn new(
        code: &'static str,
        names: &'static [&'static str],
        read: Read<T>,
    ) -> Format<T> {
        Format { code, names, read }
    }

    pub fn of(code: &[u8], formats: &'static [Format<T>]) -> Option<&'static Format<T>> {
        formats.iter().find(|format| format.code.as_bytes() == code)
    }

    /// The fields under their names, of which the first has the number given. There is a text to
    /// each name, else there are too many or too few.
    pub fn fields<'a, 'f>(
        &self,
        first: usize,
        texts: &'f [&'a [u8]],
    ) -> Result<Fields<'a, 'f>, Wrong<'a>> {
        let &Format { code, names, .. } = self;
        if texts.len() == names.len() {
            return Ok(Fields { texts, names, first, place: 0 });
        }
        let ends_empty = texts.last().is_some_and(|text| text.is_empty());
        Err(Wrong::Count(Count { code, names, before: first - 1, has: texts.len(), ends_empty }))
    }
}

/// The fields of a string, taken one after another.
pub struct Fields<'a, 'f> {
    texts: &'f [&'a [u8]],
    names: &'static [&'static str],
    first: usize,
    place: usize,
}

impl<'a> Fields<'a, '_> {
    pub fn take(&mut self) -> Field<'a> {
        let Fields { texts, names, first, place } = *self;
        self.place += 1;
        Field { number: first + place, name: names[place], text: texts[place] }
    }
}

impl<'a> Field<'a> {
    /// 01: "Letters shown as fields have exactly that many digits"
    pub fn digits<T: TryFrom<i64>>(self, width: usize, range: Range) -> Result<T, Wrong<'a>> {
        let form = Form::Digits(width);
        if self.text.len() != width {
            return Err(Wrong::Form(self, form));
        }
        self.within(self.value(self.text, form)?, range, form)
    }

    /// 01: "nnn has 1 to 10 digits, leading zeros allowed"
    pub fn number<T: TryFrom<i64>>(self, range: Range) -> Result<T, Wrong<'a>> {
        self.within(self.value(self.text, Form::Number)?, range, Form::Number)
    }

    /// 01: "± is a sign that must stand, and minus zero is zero"
    pub fn signed(self, range: Range) -> Result<i32, Wrong<'a>> {
        let value = match self.text {
            [b'+', digits @ ..] => self.value(digits, Form::Signed)?,
            [b'-', digits @ ..] => -self.value(digits, Form::Signed)?,
            _ => return Err(Wrong::Form(self, Form::Signed)),
        };
        self.within(value, range, Form::Signed)
    }

    /// 01: "`AASA,nnn`, sign optional"
    pub fn signed_or_not(self, range: Range) -> Result<i32, Wrong<'a>> {
        let form = Form::SignedOrNot;
        let value = match self.text {
            [b'-', digits @ ..] => -self.value(digits, form)?,
            [b'+', digits @ ..] | digits => self.value(digits, form)?,
        };
        self.within(value, range, form)
    }

    /// 01: "s is + or -". True is +.
    pub fn sign(self) -> Result<bool, Wrong<'a>> {
        match self.text {
            b"+" => Ok(true),
            b"-" => Ok(false),
            _ => Err(Wrong::Form(self, Form::Sign)),
        }
    }

    /// 01: "V and S are 0 or 1"
    pub fn bit(self) -> Result<bool, Wrong<'a>> {
        match self.text {
            b"0" => Ok(false),
            b"1" => Ok(true),
            _ => Err(Wrong::Form(self, Form::Bit)),
        }
    }

    /// 01: "XX is x1 or x4, also with X". True is x4.
    pub fn multiplier(self) -> Result<bool, Wrong<'a>> {
        match self.text {
            b"x1" | b"X1" => Ok(false),
            b"x4" | b"X4" => Ok(true),
            _ => Err(Wrong::Form(self, Form::Multiplier)),
        }
    }

    /// The place of a name in a list of names.
    pub fn name(self, names: &'static [&'static str]) -> Result<usize, Wrong<'a>> {
        let place = names.iter().position(|name| name.as_bytes() == self.text);
        place.ok_or(Wrong::Form(self, Form::Name(names)))
    }

    /// The value of 1 to 10 digits of the field, whose form is given.
    fn value(self, digits: &[u8], form: Form) -> Result<i64, Wrong<'a>> {
        if digits.is_empty() || digits.len() > 10 || !digits.iter().all(u8::is_ascii_digit) {
            return Err(Wrong::Form(self, form));
        }
        Ok(digits.iter().fold(0, |value, digit| 10 * value + i64::from(digit - b'0')))
    }

    fn within<T: TryFrom<i64>>(self, value: i64, range: Range, form: Form) -> Result<T, Wrong<'a>> {
        let wrong = Wrong::Range(self, form, range);
        if !range.has(value) {
            return Err(wrong);
        }
        T::try_from(value).map_err(|_| wrong)
    }
}
