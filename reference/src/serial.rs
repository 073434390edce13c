//! 01, "Strings": which strings are heard, commands, requests and their answers.

use crate::command::{parse, Asked, Command, Preset, Request, SHOWN_OUTPUTS};
use crate::instruction::Cell;
use crate::memory::{Drive, Suspended, OUTPUT_NAMES};
use crate::reasons::{Explanation, Silent, Wrong};

pub const CARRIAGE_RETURN: u8 = 13;
pub const BROADCAST: u8 = 99;

impl Drive {
    /// 01: "String: 2, drive unsound; 3, answer buffer under 64 bytes. Answers fill the front;
    /// later bytes keep their content." Gives the answer's length, or `None` where the drive is
    /// silent.
    pub fn string(&mut self, bytes: &[u8], buffer: &mut [u8]) -> Result<Option<usize>, u8> {
        self.refuse_unsound()?;
        self.string_unchecked(bytes, buffer)
    }

    /// A string on a sound drive.
    pub(crate) fn string_unchecked(
        &mut self,
        bytes: &[u8],
        buffer: &mut [u8],
    ) -> Result<Option<usize>, u8> {
        if buffer.len() < 64 {
            return Err(3);
        }
        let Ok((address, text)) = self.hear(bytes) else { return Ok(None) };
        let value = self.judge(text).map(|asked| self.carry_out(asked));
        // 01: "Address 99 is never answered. AA is the address in the string, also after WS,AD."
        if address == BROADCAST {
            return Ok(None);
        }
        let answer = match value {
            Ok(None) => format!("{address:02}Y\r"),
            Err(_) => format!("{address:02}N\r"),
            // 01: "Requests repeat themselves with the value after"
            Ok(Some(value)) => {
                format!("{address:02}{},{value}\r", String::from_utf8_lossy(text))
            }
        };
        buffer[..answer.len()].copy_from_slice(answer.as_bytes());
        Ok(Some(answer.len()))
    }

    /// What `string` would make of a string, and why: the same checks, and nothing is carried out.
    /// Refusal 2 as there.
    pub fn explain(&self, bytes: &[u8]) -> Result<Explanation, u8> {
        self.refuse_unsound()?;
        let (address, text) = match self.hear(bytes) {
            Ok(heard) => heard,
            Err(silent) => return Ok(Explanation::Silent(silent.to_string())),
        };
        Ok(match (address, self.judge(text)) {
            (BROADCAST, Ok(_)) => Explanation::carried_out_for_all(),
            (BROADCAST, Err(wrong)) => Explanation::wrong_for_all(wrong),
            (_, Ok(_)) => Explanation::Taken,
            (_, Err(wrong)) => Explanation::Rejected(wrong.to_string()),
        })
    }

    /// Checks 1 to 4: the address and the text between it and the 13, or why the drive is silent.
    fn hear<'a>(&self, bytes: &'a [u8]) -> Result<(u8, &'a [u8]), Silent> {
        // 01: "(1) empty, or last byte not 13: silent"
        let own = self.presets.address;
        let [string @ .., CARRIAGE_RETURN] = bytes else {
            return Err(if bytes.is_empty() { Silent::Empty } else { Silent::Unended });
        };
        // 01: "(2) first two bytes not digits, or neither own address nor 99: silent"
        let (address, text) = match string {
            [] => return Err(Silent::Empty),
            [tens @ b'0'..=b'9', ones @ b'0'..=b'9', text @ ..] => {
                (10 * (tens - b'0') + (ones - b'0'), text)
            }
            _ => return Err(Silent::NoAddress { own }),
        };
        if address != own && address != BROADCAST {
            return Err(Silent::OtherAddress { address, own });
        }
        let code = text.get(..2).unwrap_or_default();
        // 01: "(3) busy, and bytes 3 and 4 not EE or ES: silent"
        if !self.idle() && !matches!(code, b"EE" | b"ES") {
            return Err(Silent::Busy(self.running));
        }
        // 01: "(4) for 99, code not WS, EE, ES: silent"
        if address == BROADCAST && !matches!(code, b"WS" | b"EE" | b"ES") {
            return Err(Silent::NotForAll);
        }
        Ok((address, text))
    }

    /// Checks 5 and 6.
    fn judge<'a>(&self, text: &'a [u8]) -> Result<Asked, Wrong<'a>> {
        match parse(text)? {
            // 01: "(6) PS with input EE on: `AAN`"
            Asked::Command(Command::Start(_)) if self.inputs.ee => Err(Wrong::EmergencyInput),
            asked => Ok(asked),
        }
    }

    /// Check 7. 01: "carried out". The value of a request; a command has none.
    fn carry_out(&mut self, asked: Asked) -> Option<String> {
        match asked {
            Asked::Request(request) => return Some(self.value(request)),
            Asked::Command(Command::Store { address, cell }) => self.store(address, cell),
            Asked::Command(Command::Set(preset)) => self.set(preset),
            Asked::Command(Command::Start(address)) => self.start(address),
            Asked::Command(Command::EmergencyStop) => self.emergency_stop(),
            Asked::Command(Command::FreeRunStop) => self.free_run_stop(),
            Asked::Command(Command::Position(position)) => self.position = position,
            Asked::Command(Command::Output { place, on }) => self.outputs.set(place, on),
            Asked::Command(Command::Cam(cam)) => self.cam = cam,
        }
        None
    }

    /// 01: "WN of changed content into the interrupted record's cell empties the record; WN of
    /// equal content leaves it."
    fn store(&mut self, address: u8, cell: Cell) {
        if address == self.suspended.cell && cell != self.cell(address) {
            self.suspended = Suspended::EMPTY;
        }
        self.cells[usize::from(address - Drive::FIRST)] = cell;
    }

    fn set(&mut self, preset: Preset) {
        match preset {
            Preset::Address(address) => self.presets.address = address,
            Preset::Current(current) => self.presets.current = current,
            Preset::Resolution(resolution) => self.presets.resolution = resolution,
            Preset::StopBlocksStart(on) => self.presets.stop_blocks_start = on,
            Preset::Absolute(on) => self.presets.absolute = on,
        }
    }

    /// The value that a request is answered with.
    fn value(&self, request: Request) -> String {
        match request {
            Request::Position => format!("{:+}", self.position),
            Request::Preset(place) => self.preset_value(place),
            Request::Input(place) => print_bit(self.inputs.get(place)),
            // 01: "QO,name (also BS 0 and FA 1)"
            Request::Output(place) if place >= OUTPUT_NAMES.len() => {
                print_bit(SHOWN_OUTPUTS[place] == "FA")
            }
            Request::Output(place) => print_bit(self.outputs.get(place)),
            Request::Cell(address) => self.cell(address).print(),
            // 01: "QC `1,±nnn` or `0`"
            Request::Cam if self.cam.set => format!("1,{:+}", self.cam.position),
            Request::Cam => print_bit(false),
            // 01: "QE code (2 digits), cell (3)"
            Request::Fault => format!("{:02},{:03}", self.fault.code, self.fault.cell),
            Request::Suspended => self.suspended_value(),
        }
    }

    /// The preset at a place of `PRESET_NAMES`.
    fn preset_value(&self, place: usize) -> String {
        match place {
            0 => self.presets.address.to_string(),
            1 => self.presets.current.to_string(),
            2 => self.presets.resolution.name().to_string(),
            3 => print_bit(self.presets.stop_blocks_start),
            _ => print_bit(self.presets.absolute),
        }
    }

    /// 01: "QR: `000`, or cell, `±nnn` rest, nnn loop count"
    fn suspended_value(&self) -> String {
        let Suspended { cell, remaining, loop_count } = self.suspended;
        if cell == 0 {
            return "000".to_string();
        }
        format!("{cell:03},{:+},{loop_count}", remaining.number())
    }
}

fn print_bit(on: bool) -> String {
    u8::from(on).to_string()
}
