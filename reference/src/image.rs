//! 02, Slip 1: the memory image. "An image is the five presets and cells 100 to 227, each number in
//! groups of seven bits, lowest first, bit 7 set on all groups but the last, shortest form only,
//! signed n as 2n or −2n−1."

use crate::instruction::{Cell, Instruction, Instruction::*};
use crate::memory::{Drive, Presets, Resolution};

/// Cells 100 to 227.
const KEPT: usize = 128;

/// The length of the longest image: five presets in a group each, and 128 times a 05 or a 31 of 11
/// groups.
pub const LONGEST: usize = 5 + 11 * KEPT;

/// Bit 7 of a group: another one follows.
const MORE: u8 = 0x80;

impl Drive {
    /// 02: "The writer tells the image's length and leaves later bytes as they are."; "9, image
    /// buffer too short for the image, after 2"
    pub fn image(&self, buffer: &mut [u8]) -> Result<usize, u8> {
        self.refuse_unsound()?;
        let mut writer = Writer { bytes: [0; LONGEST], length: 0 };
        writer.presets(&self.presets);
        for cell in &self.cells[..KEPT] {
            writer.cell(cell);
        }
        let image = &writer.bytes[..writer.length];
        // A part of an image is never written.
        buffer.get_mut(..image.len()).ok_or(9)?.copy_from_slice(image);
        Ok(image.len())
    }

    /// 02: "10, the only refusal of reading, bytes that the writer makes for no drive". The writer
    /// refuses unsound drives, so fields out of their range are among these.
    pub fn load(bytes: &[u8]) -> Result<Drive, u8> {
        read(bytes).filter(Drive::sound).ok_or(10)
    }
}

/// 02: "Reading gives a fresh drive so filled. Cells 228 to 230 aren't kept and are Null after
/// reading." `None` where the bytes aren't the numbers of an image, or hold one that no record can.
fn read(bytes: &[u8]) -> Option<Drive> {
    let mut reader = Reader { rest: bytes };
    let mut drive = Drive::fresh(reader.number()?).ok()?;
    drive.presets.current = reader.field()?;
    drive.presets.resolution = Resolution::at(reader.field()?)?;
    drive.presets.stop_blocks_start = reader.bit()?;
    drive.presets.absolute = reader.bit()?;
    for cell in &mut drive.cells[..KEPT] {
        *cell = reader.cell()?;
    }
    reader.rest.is_empty().then_some(drive)
}

struct Writer {
    bytes: [u8; LONGEST],
    length: usize,
}

impl Writer {
    fn group(&mut self, group: u8) {
        self.bytes[self.length] = group;
        self.length += 1;
    }

    fn number(&mut self, mut number: u32) {
        while number >= u32::from(MORE) {
            self.group(number as u8 | MORE);
            number >>= 7;
        }
        self.group(number as u8);
    }

    fn numbers(&mut self, numbers: &[u32]) {
        for number in numbers {
            self.number(*number);
        }
    }

    /// 02: "First come the presets in 01's order"
    fn presets(&mut self, presets: &Presets) {
        self.numbers(&[
            presets.address.into(),
            presets.current.into(),
            presets.resolution as u32,
            presets.stop_blocks_start.into(),
            presets.absolute.into(),
        ]);
    }

    /// 02: "then of each cell code, parameters and DDD in the order of its QM answer, without the
    /// cell address"
    fn cell(&mut self, cell: &Cell) {
        self.instruction(cell.instruction);
        // 01: "Code 69 has no DDD"
        if cell.instruction != Recovery {
            self.number(cell.next.into());
        }
    }

    /// 02: "names, letters and s stand as their place in the list that 01 gives with their field or
    /// preset, counted from 0"
    #[rustfmt::skip]
    fn instruction(&mut self, instruction: Instruction) {
        match instruction {
            Null => self.number(0),
            IndexedRamp { frequency, ramp, steps, x4 } => {
                self.numbers(&[1, frequency.into(), ramp.into(), folded(steps), x4.into()])
            }
            FreeRamp { frequency, ramp, forward, x4 } => {
                self.numbers(&[2, frequency.into(), ramp.into(), sign(forward), x4.into()])
            }
            ZeroSearch { frequency, ramp, forward, slow } => {
                self.numbers(&[3, frequency.into(), ramp.into(), sign(forward), slow.into()])
            }
            DelayedStop { frequency, ramp, forward, steps, x4 } => self.numbers(&[
                5, frequency.into(), ramp.into(), sign(forward), steps as u32, x4.into(),
            ]),
            Indexed { frequency, steps, x4 } => {
                self.numbers(&[11, frequency.into(), folded(steps), x4.into()])
            }
            Free { frequency, forward, x4 } => {
                self.numbers(&[12, frequency.into(), sign(forward), x4.into()])
            }
            IndexedFine { frequency, steps, x4 } => {
                self.numbers(&[21, frequency.into(), folded(steps), x4.into()])
            }
            FreeFine { frequency, forward, x4 } => {
                self.numbers(&[22, frequency.into(), sign(forward), x4.into()])
            }
            IndexedRampFine { frequency, ramp, steps, x4 } => {
                self.numbers(&[31, frequency.into(), ramp.into(), folded(steps), x4.into()])
            }
            FreeRampFine { frequency, ramp, forward, x4 } => {
                self.numbers(&[32, frequency.into(), ramp.into(), sign(forward), x4.into()])
            }
            CamSetting { set, position } => self.numbers(&[57, set.into(), folded(position)]),
            OutputSetting { output, on } => self.numbers(&[58, output.into(), on.into()]),
            CounterReset => self.number(60),
            OpeningLoop { count } => self.numbers(&[61, count.into()]),
            ClosingLoop { jump } => self.numbers(&[62, jump.into()]),
            ConditionalJump { input, on, jump } => {
                self.numbers(&[63, input.into(), on.into(), jump.into()])
            }
            TimeDelay { milliseconds } => self.numbers(&[65, milliseconds]),
            Recovery => self.number(69),
            CurrentSetting { on } => self.numbers(&[70, on.into()]),
        }
    }
}

/// 02: "signed n as 2n or −2n−1". The sign goes to the lowest bit.
fn folded(n: i32) -> u32 {
    ((n << 1) ^ (n >> 31)) as u32
}

fn unfolded(number: u32) -> i32 {
    let half = (number >> 1) as i32;
    match number & 1 {
        0 => half,
        _ => -half - 1,
    }
}

/// 01: "s is + or -"
fn sign(forward: bool) -> u32 {
    u32::from(!forward)
}

/// The bytes of an image that are still to be read.
struct Reader<'a> {
    rest: &'a [u8],
}

impl Reader<'_> {
    /// 02: "shortest form only". No number of an image has more than 32 bits.
    fn number(&mut self) -> Option<u32> {
        let mut number = 0;
        for place in 0..5 {
            let (&group, rest) = self.rest.split_first()?;
            self.rest = rest;
            number |= u64::from(group & !MORE) << (7 * place);
            if group < MORE {
                let shortest = place == 0 || group != 0;
                return u32::try_from(number).ok().filter(|_| shortest);
            }
        }
        None
    }

    fn field<T: TryFrom<u32>>(&mut self) -> Option<T> {
        T::try_from(self.number()?).ok()
    }

    fn bit(&mut self) -> Option<bool> {
        match self.number()? {
            0 => Some(false),
            1 => Some(true),
            _ => None,
        }
    }

    /// True is +.
    fn forward(&mut self) -> Option<bool> {
        self.bit().map(|minus| !minus)
    }

    fn signed(&mut self) -> Option<i32> {
        self.number().map(unfolded)
    }

    fn cell(&mut self) -> Option<Cell> {
        let code = self.number()?;
        let instruction = self.instruction(code)?;
        let next = if instruction == Recovery { 0 } else { self.field()? };
        Some(Cell { instruction, next })
    }

    #[rustfmt::skip]
    fn instruction(&mut self, code: u32) -> Option<Instruction> {
        Some(match code {
            0 => Null,
            1 => IndexedRamp {
                frequency: self.field()?, ramp: self.field()?, steps: self.signed()?,
                x4: self.bit()?,
            },
            2 => FreeRamp {
                frequency: self.field()?, ramp: self.field()?, forward: self.forward()?,
                x4: self.bit()?,
            },
            3 => ZeroSearch {
                frequency: self.field()?, ramp: self.field()?, forward: self.forward()?,
                slow: self.field()?,
            },
            5 => DelayedStop {
                frequency: self.field()?, ramp: self.field()?, forward: self.forward()?,
                steps: self.field()?, x4: self.bit()?,
            },
            11 => Indexed { frequency: self.field()?, steps: self.signed()?, x4: self.bit()? },
            12 => Free { frequency: self.field()?, forward: self.forward()?, x4: self.bit()? },
            21 => IndexedFine { frequency: self.field()?, steps: self.signed()?, x4: self.bit()? },
            22 => FreeFine { frequency: self.field()?, forward: self.forward()?, x4: self.bit()? },
            31 => IndexedRampFine {
                frequency: self.field()?, ramp: self.field()?, steps: self.signed()?,
                x4: self.bit()?,
            },
            32 => FreeRampFine {
                frequency: self.field()?, ramp: self.field()?, forward: self.forward()?,
                x4: self.bit()?,
            },
            57 => CamSetting { set: self.bit()?, position: self.signed()? },
            58 => OutputSetting { output: self.field()?, on: self.bit()? },
            60 => CounterReset,
            61 => OpeningLoop { count: self.field()? },
            62 => ClosingLoop { jump: self.field()? },
            63 => ConditionalJump {
                input: self.field()?, on: self.bit()?, jump: self.field()?,
            },
            65 => TimeDelay { milliseconds: self.field()? },
            69 => Recovery,
            70 => CurrentSetting { on: self.bit()? },
            _ => return None,
        })
    }
}
