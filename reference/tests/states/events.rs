//! The events of the page, given to a drive, and what was handed back.

use reference::memory::Drive;

#[derive(Clone, Copy, PartialEq, Debug)]
pub enum Event {
    Millisecond,
    Step,
    AtSpeed,
    Halted,
    /// A text behind address 00.
    String(&'static str),
    /// An inputs word; the row's own PX is added where the event doesn't settle it.
    Inputs {
        word: u32,
        own_px: bool,
    },
}

/// What a call hands back.
#[derive(Clone, PartialEq, Debug)]
pub enum Back {
    Accepted,
    Refused(u8),
    Silent,
    Yes,
    No,
    Value,
}

pub const PX: u32 = 1 << 3;
pub const S1: u32 = 1 << 5;
pub const ST: u32 = 1 << 8;
pub const ES: u32 = 1 << 9;
pub const EE: u32 = 1 << 10;

pub const ES_ON: Event = Event::Inputs { word: ES, own_px: true };
pub const EE_ON: Event = Event::Inputs { word: EE, own_px: true };
pub const ST_ON: Event = Event::Inputs { word: ST | S1, own_px: true };
pub const PX_ON: Event = Event::Inputs { word: PX, own_px: false };
pub const PX_OFF: Event = Event::Inputs { word: 0, own_px: false };

impl Event {
    pub fn give(self, drive: &mut Drive) -> Back {
        let result = match self {
            Event::Millisecond => drive.millisecond(),
            Event::Step => drive.step(),
            Event::AtSpeed => drive.at_speed(),
            Event::Halted => drive.halted(),
            Event::Inputs { word, own_px } => {
                let own = if own_px && drive.inputs.px { PX } else { 0 };
                drive.inputs(word | own)
            }
            Event::String(text) => return say(drive, text),
        };
        result.map_or_else(Back::Refused, |()| Back::Accepted)
    }
}

fn say(drive: &mut Drive, text: &str) -> Back {
    let mut buffer = [0; 64];
    let length = drive.string(format!("00{text}\r").as_bytes(), &mut buffer);
    match length.expect("the drive is sound").map(|length| &buffer[2..length]) {
        None => Back::Silent,
        Some(b"Y\r") => Back::Yes,
        Some(b"N\r") => Back::No,
        Some(_) => Back::Value,
    }
}
