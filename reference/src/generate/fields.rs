//! The fields of strings as text: in range and well formed, or, where the generator is careless,
//! nearly so.

use super::Generator;

/// The greatest number of steps in an instruction, either way.
pub const MOST_STEPS: i64 = 8_388_607;

/// The greatest number of milliseconds in an instruction.
pub const LONGEST_DELAY: i64 = 8_388_607;

const END_OF_POSITIONS: i64 = 2_147_483_647;

pub const OUTPUTS: [&str; 13] =
    ["O0", "O1", "O2", "O3", "FC", "F0", "F1", "F2", "F3", "F4", "F5", "F6", "F7"];

/// What 63 looks at.
pub const CONDITIONS: [&str; 16] = [
    "I0", "I1", "I2", "PX", "S0", "S1", "S2", "S3", "F0", "F1", "F2", "F3", "F4", "F5", "F6", "F7",
];

pub const INPUTS: [&str; 11] = ["I0", "I1", "I2", "PX", "S0", "S1", "S2", "S3", "ST", "ES", "EE"];

pub const PRESETS: [&str; 5] = ["AD", "IN", "RS", "ES", "CM"];

pub const RESOLUTIONS: [&str; 8] = ["D0", "D1", "D2", "D3", "B0", "B1", "B2", "B3"];

impl Generator {
    /// Whether this field goes wrong: once in a careless string, so that no other fault hides it,
    /// else almost never.
    pub fn slip(&mut self) -> bool {
        match self.careless {
            Some(0) => {
                self.careless = None;
                true
            }
            Some(fields) => {
                self.careless = Some(fields - 1);
                false
            }
            None => self.random.once_in(250),
        }
    }

    /// A value of the range, its ends more often than others; by a slip one beyond them.
    pub fn value(&mut self, low: i64, high: i64) -> i64 {
        if self.slip() {
            let below = low > 0 && self.random.once_in(2);
            return if below { low - 1 } else { high + 1 };
        }
        match self.random.below(8) {
            0 => low,
            1 => high,
            _ => self.random.between(low, high),
        }
    }

    /// A number of exactly `width` digits; by a slip one digit more or less.
    pub fn exact(&mut self, low: i64, high: i64, width: usize) -> String {
        let value = self.value(low, high);
        let width = if self.slip() { self.random.pick(&[width - 1, width + 1]) } else { width };
        format!("{value:0width$}")
    }

    /// The value as nnn: 1 to 10 digits with leading zeros now and then; by a slip 11 digits or a
    /// sign.
    pub fn digits(&mut self, value: i64) -> String {
        if self.slip() {
            return self.random.pick(&["+", "", "0000000000", "-"]).to_string()
                + &value.to_string();
        }
        let width = if self.random.once_in(6) { 1 + self.random.below(10) } else { 1 };
        format!("{value:0width$}")
    }

    /// The value as ±nnn. Zero stands with either sign; by a slip the sign is missing.
    pub fn signed(&mut self, value: i64) -> String {
        let sign = match (value.signum(), self.random.once_in(3)) {
            _ if self.slip() => "",
            (-1, _) | (0, true) => "-",
            _ => "+",
        };
        sign.to_string() + &self.digits(value.abs())
    }

    pub fn sign(&mut self) -> String {
        let signs = if self.slip() { ["", "1", "x"] } else { ["+", "-", "+"] };
        self.random.pick(&signs).to_string()
    }

    pub fn multiplier(&mut self) -> String {
        let forms =
            if self.slip() { ["x2", "1", "x", "xx", "4x"] } else { ["x1", "x1", "x4", "X1", "X4"] };
        self.random.pick(&forms).to_string()
    }

    /// 0 or 1 as one digit.
    pub fn bit(&mut self) -> String {
        let forms = if self.slip() { ["2", "01", "", "-"] } else { ["0", "1", "0", "1"] };
        self.random.pick(&forms).to_string()
    }

    /// One of the names of a list; by a slip a name that stands elsewhere or nowhere.
    pub fn name(&mut self, names: &[&str]) -> String {
        if self.slip() {
            return self
                .random
                .pick(&["CU", "BS", "FA", "O4", "F8", "I3", "ST", "D4", "o0", ""])
                .to_string();
        }
        self.random.pick(names).to_string()
    }

    /// ±nnn steps of an indexed run: few in relative mode, and in absolute mode a place nearby.
    pub fn steps(&mut self) -> String {
        let absolute = self.drive.presets.absolute;
        let here = if absolute { i64::from(self.drive.position) } else { 0 };
        let most = if self.slip() { MOST_STEPS + 1 } else { MOST_STEPS };
        let value = match self.random.below(24) {
            0 => 0,
            1 => self.random.pick(&[-most, most]),
            2 => self.random.between(-100_000, 100_000),
            _ => (here + self.random.between(-6, 6)).clamp(-most, most),
        };
        self.signed(value)
    }

    /// A place for the position or the cam: nearby, at the ends of 32 bits, or anywhere.
    pub fn place(&mut self) -> i64 {
        let here = i64::from(self.drive.position);
        if self.slip() {
            let beyond =
                [END_OF_POSITIONS + 1, -END_OF_POSITIONS - 2, 4_294_967_297, 9_999_999_999];
            return self.random.pick(&beyond);
        }
        let value = match self.random.below(8) {
            0 => 0,
            1 => END_OF_POSITIONS - self.random.between(0, 4),
            2 => -END_OF_POSITIONS - 1 + self.random.between(0, 4),
            3 => self.random.between(-END_OF_POSITIONS - 1, END_OF_POSITIONS),
            4 => self.random.between(-20_000_000, 20_000_000),
            _ => here + self.random.between(-5, 5),
        };
        value.clamp(-END_OF_POSITIONS - 1, END_OF_POSITIONS)
    }

    /// A cell address as text.
    pub fn cell(&mut self, cell: u8) -> String {
        if self.slip() {
            return self.random.pick(&["099", "231", "256", "000", "1", "0100"]).to_string();
        }
        format!("{cell:03}")
    }

    pub fn any_cell(&mut self) -> u8 {
        self.random.between(100, 230) as u8
    }
}
