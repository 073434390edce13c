//! Images written and read: of the drive itself and of random memories, whole, or damaged at one
//! place.

use super::layout::{groups, Field, CAM, CELLS, CODES, PRESETS};
use super::{hex, Generator};
use crate::frequency::TABLE;
use crate::memory::Drive;

/// A number of an image and what it may be.
type Number = (Field, u64);

/// The presets, then the cells: the numbers of each.
type Parts = Vec<Vec<Number>>;

const NULL: [Number; 2] = [(Field::Code, 0), (Field::Next, 0)];
const RECOVERY: [Number; 1] = [(Field::Code, 69)];

type Damage = fn(&mut Generator) -> Vec<u8>;

const DAMAGES: [(usize, Damage); 8] = [
    (12, Generator::wrong_number),
    (3, Generator::longer_form),
    (3, Generator::cut),
    (2, Generator::wide_number),
    (2, Generator::bytes_after_the_end),
    (2, Generator::changed_bytes),
    (1, Generator::unset_cam_with_a_number),
    (1, |_| vec![]),
];

impl Generator {
    /// An image into a buffer that is just long enough, one short, much too short, or longer.
    pub fn save(&mut self) {
        let length = self.own_image().len();
        let size = match self.random.below(8) {
            0..=2 => length,
            3 | 4 => length.saturating_sub(1),
            5 => self.random.pick(&[0, 1, 132, 133]),
            6 => length + self.random.below(20),
            _ => 2_048,
        };
        let fill = if self.random.once_in(2) { self.random.below(256) } else { 0 };
        self.write(&format!("O {size} {fill}"));
    }

    /// An image read, and now and then a look at the drive that is in use then.
    pub fn load(&mut self) {
        let image = if self.random.once_in(3) { self.whole() } else { self.damaged() };
        self.load_bytes(&image);
        match self.random.below(8) {
            0 => self.reading(),
            1 | 2 => self.save(),
            _ => {}
        }
    }

    /// An image that is mostly refused, so that what is under way goes on.
    pub fn load_mostly_damaged(&mut self) {
        let image = if self.random.once_in(12) { self.whole() } else { self.damaged() };
        self.load_bytes(&image);
    }

    pub fn load_bytes(&mut self, image: &[u8]) {
        let shown = if image.is_empty() { "-".to_string() } else { hex(image) };
        if self.write(&format!("L {shown}")) {
            if let Ok(drive) = Drive::load(image) {
                self.drive = drive;
            }
        }
    }

    fn own_image(&self) -> Vec<u8> {
        image_of(&self.drive)
    }

    fn whole(&mut self) -> Vec<u8> {
        if self.drive.sound() && self.random.once_in(2) {
            return self.own_image();
        }
        joined(&self.memory())
    }

    fn damaged(&mut self) -> Vec<u8> {
        let damage = self.random.weighted(&DAMAGES);
        damage(self)
    }

    /// A memory that is mostly empty, mostly of 69s, or full of anything.
    fn memory(&mut self) -> Parts {
        let often = self.random.pick(&[20, 20, 40, 1]);
        let most: &[Number] = self.random.pick(&[&NULL, &RECOVERY]);
        let mut parts = vec![PRESETS.map(|field| (field, self.inside(field))).to_vec()];
        for _ in 0..CELLS {
            let any = self.random.once_in(often);
            parts.push(if any { self.any_numbers() } else { most.to_vec() });
        }
        parts
    }

    /// The numbers of a cell of any code.
    fn any_numbers(&mut self) -> Vec<Number> {
        let row = self.random.pick(&CODES);
        self.numbers(row)
    }

    fn numbers(&mut self, (code, fields): (u64, &[Field])) -> Vec<Number> {
        let mut numbers = vec![(Field::Code, code)];
        numbers.extend(fields.iter().map(|field| (*field, self.inside(*field))));
        if code == CAM && numbers[1].1 == 0 {
            numbers[2].1 = 0;
        }
        numbers
    }

    /// A value that the field may have, its ends more often than others.
    fn inside(&mut self, field: Field) -> u64 {
        match field {
            Field::Code => self.random.pick(&CODES).0,
            Field::Frequency => match self.random.below(6) {
                0 => 1,
                1 => 4_800,
                _ => self.random.pick(&TABLE).into(),
            },
            Field::Next if self.random.once_in(3) => 0,
            Field::Next => self.inside(Field::Within(100, 230)),
            Field::Within(low, high) => match self.random.below(6) {
                0 => low,
                1 => high,
                2 => low + self.random.below(1_000) as u64 % (high - low + 1),
                // The ends of 16 bits, where the field has more.
                3 if high > 65_536 => self.random.pick(&[65_535, 65_536]),
                _ => self.random.between(low as i64, high as i64) as u64,
            },
        }
    }

    /// A value that the field may not have: the nearest, or one that looks right in fewer bits.
    fn outside(&mut self, field: Field) -> u64 {
        if self.random.once_in(5) && field != Field::Within(0, u32::MAX.into()) {
            return self.inside(field) + self.random.pick(&[1 << 24, 1 << 31]);
        }
        match field {
            Field::Code => {
                self.random.pick(&[4, 6, 10, 13, 20, 30, 33, 56, 59, 64, 66, 71, 99, 256])
            }
            Field::Frequency => self.no_frequency(),
            Field::Next => self.random.pick(&[1, 99, 231, 256, 356]),
            Field::Within(0, high) => high + 1,
            Field::Within(low, high) => self.random.pick(&[low - 1, high + 1]),
        }
    }

    /// Beyond the table, or just above one of its last numbers, which lie apart.
    fn no_frequency(&mut self) -> u64 {
        match self.random.below(4) {
            0 => self.random.pick(&[0, 319, 4_801]),
            _ => u64::from(self.random.pick(&TABLE[420..])) + 1,
        }
    }

    /// A memory with a random cell at a random place, and the numbers of it or of the presets.
    fn place_to_damage(&mut self) -> (Parts, usize, usize) {
        let mut parts = self.memory();
        let part = if self.random.once_in(8) { 0 } else { 1 + self.random.below(CELLS) };
        if part != 0 {
            parts[part] = self.any_numbers();
        }
        let number = self.random.below(parts[part].len());
        (parts, part, number)
    }

    fn wrong_number(&mut self) -> Vec<u8> {
        let (mut parts, part, number) = self.place_to_damage();
        let (field, value) = &mut parts[part][number];
        *value = self.outside(*field);
        joined(&parts)
    }

    /// A number of more than 32 bits that looks right in 32.
    fn wide_number(&mut self) -> Vec<u8> {
        let (mut parts, part, number) = self.place_to_damage();
        parts[part][number].1 += 1 << self.random.pick(&[32, 34, 35, 41, 42, 62]);
        joined(&parts)
    }

    fn unset_cam_with_a_number(&mut self) -> Vec<u8> {
        let (mut parts, part, _) = self.place_to_damage();
        let row = CODES.iter().find(|row| row.0 == CAM).expect("57 is a code");
        let mut cell = self.numbers(*row);
        cell[1].1 = 0;
        cell[2].1 = self.random.pick(&[1, 2, 127, 128, u32::MAX.into()]);
        parts[part.max(1)] = cell;
        joined(&parts)
    }

    /// A number with one group or two that it doesn't need.
    fn longer_form(&mut self) -> Vec<u8> {
        let (parts, part, number) = self.place_to_damage();
        let mut longer = groups(parts[part][number].1);
        for _ in 0..1 + self.random.below(2) {
            *longer.last_mut().expect("a number has a group") |= 128;
            longer.push(0);
        }
        let mut bytes = joined(&parts[..part]);
        bytes.extend(joined_numbers(&parts[part][..number]));
        bytes.extend(longer);
        bytes.extend(joined_numbers(&parts[part][number + 1..]));
        bytes.extend(joined(&parts[part + 1..]));
        bytes
    }

    fn cut(&mut self) -> Vec<u8> {
        let mut bytes = self.whole();
        let length =
            if self.random.once_in(2) { bytes.len() - 1 } else { self.random.below(bytes.len()) };
        bytes.truncate(length);
        bytes
    }

    fn bytes_after_the_end(&mut self) -> Vec<u8> {
        let mut bytes = self.whole();
        for _ in 0..1 + self.random.below(2) {
            bytes.push(self.random.pick(&[0, 0, 69, 128, 255]));
        }
        bytes
    }

    /// One byte or two changed at random: mostly damage, but not always.
    fn changed_bytes(&mut self) -> Vec<u8> {
        let mut bytes = self.whole();
        for _ in 0..1 + self.random.below(2) {
            let place = self.random.below(bytes.len());
            bytes[place] ^= 1 << self.random.below(8);
        }
        bytes
    }
}

/// The image of a drive; nothing where it is unsound.
pub fn image_of(drive: &Drive) -> Vec<u8> {
    let mut buffer = vec![0; 2_048];
    let length = drive.image(&mut buffer).unwrap_or(0);
    buffer.truncate(length);
    buffer
}

fn joined(parts: &[Vec<Number>]) -> Vec<u8> {
    parts.iter().flat_map(|numbers| joined_numbers(numbers)).collect()
}

fn joined_numbers(numbers: &[Number]) -> Vec<u8> {
    numbers.iter().flat_map(|(_, value)| groups(*value)).collect()
}
