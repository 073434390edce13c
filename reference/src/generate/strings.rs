//! Strings of every sort: commands and requests that are in order, nearly in order, and not at all.

use super::fields::{INPUTS, OUTPUTS, PRESETS, RESOLUTIONS};
use super::Generator;

const CARRIAGE_RETURN: u8 = 13;

/// What 01 leaves out, half codes, and codes that want more fields or fewer.
const REJECTED: [&str; 26] = [
    "Q",
    "E",
    "CY",
    "CN",
    "RA",
    "XX",
    "qa",
    "WS,EQ,0",
    "WS,RD,98",
    "QS,EQ",
    "QS,RD",
    "WS,CM,2,100",
    "WN",
    "WN,100",
    "PS",
    "PS,",
    "SA",
    "SA,",
    "SC",
    "SC,1",
    "SC,0,",
    "SO",
    "QM",
    "QA,",
    "EE,",
    "ESX",
];

impl Generator {
    /// A command to the drive itself.
    pub fn command(&mut self) {
        let text = self.command_text();
        self.say(&text);
    }

    /// A request to the drive itself.
    pub fn request(&mut self) {
        let text = self.request_text();
        self.say(&text);
    }

    /// A request for what a program leaves behind.
    pub fn look(&mut self) {
        let text = self.random.pick(&["QR", "QR", "QE", "QA", "QA", "QC", "QO,O3"]);
        self.say(text);
    }

    pub fn any_string(&mut self) {
        match self.random.below(5) {
            0 => self.near_miss(),
            1 => self.foreign(),
            2 => self.request(),
            3 => self.malformed(),
            _ => self.command(),
        }
    }

    fn command_text(&mut self) -> String {
        match self.random.below(14) {
            0..=4 => self.preset_text(),
            5 => self.stored_cell_text(),
            6 => format!("PS,{}", self.some_cell()),
            7 => self.random.pick(&["EE", "ES"]).to_string(),
            8 | 9 => self.position_text(),
            10 | 11 => format!("SO,{},{}", self.name(&OUTPUTS), self.bit()),
            _ => self.cam_text(),
        }
    }

    fn request_text(&mut self) -> String {
        match self.random.below(10) {
            0 => "QA".to_string(),
            1 => format!("QS,{}", self.name(&PRESETS)),
            2 => format!("QI,{}", self.name(&INPUTS)),
            3 => format!("QO,{}", self.name(&OUTPUTS)),
            4 => self.random.pick(&["QO,CU", "QO,BS", "QO,FA"]).to_string(),
            5 => format!("QM,{}", self.some_cell()),
            6 => "QC".to_string(),
            7 => "QE".to_string(),
            8 => "QR".to_string(),
            _ => format!("QM,{}", self.cell(self.drive.suspended.cell.max(100))),
        }
    }

    fn some_cell(&mut self) -> String {
        let cell = if self.random.once_in(2) {
            self.random.between(100, 106) as u8
        } else {
            self.any_cell()
        };
        self.cell(cell)
    }

    /// WS of one of the five presets. Those that the runs depend on come more often.
    fn preset_text(&mut self) -> String {
        let preset = self.name(&["AD", "IN", "RS", "RS", "ES", "ES", "CM", "CM"]);
        let value = match preset.as_str() {
            "AD" => self.value(0, 47),
            "IN" => self.value(0, 3),
            "RS" => return format!("WS,RS,{}", self.name(&RESOLUTIONS)),
            _ => self.value(0, 1),
        };
        format!("WS,{preset},{}", self.digits(value))
    }

    /// One cell written by itself, now and then that of the interrupted record.
    fn stored_cell_text(&mut self) -> String {
        let recorded = self.drive.suspended.cell;
        let cell = if recorded != 0 && self.random.once_in(4) { recorded } else { self.any_cell() };
        let code = self.any_code();
        let next = self.random.pick(&[0, cell, 100, 230]);
        self.cell_text(cell, code, next, &[cell])
    }

    /// SA, whose sign is optional.
    fn position_text(&mut self) -> String {
        let place = self.place();
        if place >= 0 && self.random.once_in(2) {
            return format!("SA,{}", self.digits(place));
        }
        format!("SA,{}", self.signed(place))
    }

    fn cam_text(&mut self) -> String {
        if self.random.once_in(6) {
            return "SC,0".to_string();
        }
        let place = self.place();
        format!("SC,{},{}", self.bit(), self.signed(place))
    }

    /// A cam that a run of a few steps will meet.
    pub fn cam_nearby(&mut self) {
        let ahead = self.random.pick(&[-3, -2, -1, 1, 2, 3]);
        let place = i64::from(self.drive.position.wrapping_add(ahead));
        let text = format!("SC,1,{}", self.signed(place));
        self.say(&text);
    }

    /// A position so near the end of 32 bits that a few steps pass it.
    pub fn position_at_the_end(&mut self) {
        let off = self.random.between(0, 2);
        let place = self.random.pick(&[2_147_483_647 - off, -2_147_483_648 + off]);
        let text = format!("SA,{}", self.signed(place));
        self.say(&text);
    }

    /// A string that slips in one field.
    pub fn careless_string(&mut self) {
        let most = self.random.pick(&[2, 4, 8, 12]);
        self.careless = Some(self.random.below(most));
        let text = self.sensible_text();
        self.careless = None;
        self.say(&text);
    }

    /// A string in order, then changed at one place.
    pub fn near_miss(&mut self) {
        let text = self.sensible_text();
        if self.random.once_in(3) {
            let changed = self.change_field(&text);
            return self.say(&changed);
        }
        let mut bytes = self.own(&text);
        self.change_byte(&mut bytes);
        self.send(&bytes);
    }

    fn sensible_text(&mut self) -> String {
        match self.random.below(6) {
            0 | 1 => self.request_text(),
            2 | 3 => self.command_text(),
            _ => self.stored_cell_text(),
        }
    }

    /// One field missing, doubled, moved, empty or too many.
    fn change_field(&mut self, text: &str) -> String {
        let mut fields: Vec<&str> = text.split(',').collect();
        let place = self.random.below(fields.len());
        match self.random.below(6) {
            0 => drop(fields.remove(place)),
            1 => fields.insert(place, fields[place]),
            2 => fields.swap(0, place),
            3 => fields[place] = "",
            4 => fields.push("000"),
            _ => fields.push(""),
        }
        fields.join(",")
    }

    /// One byte changed, dropped, added, or of the other case; the end lost, doubled or in the
    /// middle; too long.
    fn change_byte(&mut self, bytes: &mut Vec<u8>) {
        let place = self.random.below(bytes.len());
        match self.random.below(10) {
            0 => drop(bytes.remove(place)),
            1 => bytes.insert(place, self.random.pick(b"0123456789,+-xX QWNAE\r")),
            2 => bytes[place] ^= 1 << self.random.below(8),
            3 => bytes[place] ^= 1,
            4 => bytes[place] = bytes[place].to_ascii_lowercase(),
            5 => drop(bytes.pop()),
            6 => bytes.push(CARRIAGE_RETURN),
            7 => bytes.insert(bytes.len() - 1, b' '),
            8 => self.lengthen(bytes),
            _ => bytes[place] = self.random.pick(b"0123456789,+-xX ./:\r\n"),
        }
    }

    /// Zeros in front of the last byte, up to a length around 64 or far above.
    fn lengthen(&mut self, bytes: &mut Vec<u8>) {
        let length = self.random.pick(&[63, 64, 65, 66, 200, 256]);
        bytes.pop();
        bytes.resize(length - 1, b'0');
        bytes.push(CARRIAGE_RETURN);
    }

    /// Bytes that are hardly a string: none, no end, an unknown code, or noise.
    pub fn malformed(&mut self) {
        let mut bytes = match self.random.below(6) {
            0 => vec![],
            1 => self.own(""),
            2 | 3 => {
                let text = self.random.pick(&REJECTED);
                self.own(text)
            }
            _ => self.noise(),
        };
        if self.random.once_in(8) {
            bytes.pop();
        }
        self.send(&bytes);
    }

    fn noise(&mut self) -> Vec<u8> {
        let mut bytes = if self.random.once_in(2) { self.own("") } else { vec![] };
        bytes.pop();
        for _ in 0..self.random.below(30) {
            bytes.push(self.random.below(256) as u8);
        }
        bytes.push(CARRIAGE_RETURN);
        bytes
    }

    /// A string to another address, or to something that is none.
    pub fn foreign(&mut self) {
        let text = self.sensible_text();
        let own = self.drive.presets.address;
        let other = (own + 1) % 48;
        let address = match self.random.below(6) {
            0 => format!("{other}"),
            1 => format!("{:02}", self.random.below(100)),
            2 => {
                self.random.pick(&["48", "98", "0", "", "A0", "0A", " 0", "+1", "099"]).to_string()
            }
            _ => format!("{other:02}"),
        };
        self.send(format!("{address}{text}\r").as_bytes());
    }

    /// A string to all drives: mostly one that they take, sometimes one that only its own address
    /// may say.
    pub fn broadcast(&mut self) {
        let text = match self.random.below(6) {
            0 => self.sensible_text(),
            1 => self
                .random
                .pick(&["EE,", "ESX", "WS,", "WS,CM,2", "PS,100", "QA", "E", ""])
                .to_string(),
            2 => self.random.pick(&["EE", "ES"]).to_string(),
            _ => self.preset_text(),
        };
        self.send(format!("99{text}\r").as_bytes());
    }
}
