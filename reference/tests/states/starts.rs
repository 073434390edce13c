//! What starts an idle drive.

use crate::events::{Event, EE, ES, S1, ST};
use crate::rows::idle;
use crate::words::outcome;
use reference::memory::{Drive, Inputs};

/// A line of the table: its name, the event, and what the drive has before it.
type Line = (&'static str, Event, fn(&mut Drive));

const PS: Event = Event::String("PS,160");

/// S1 is on in every word, so that the cell is 102.
fn word(others: u32) -> Event {
    Event::Inputs { word: others | S1, own_px: false }
}

/// Name and outcome of each line.
pub fn lines() -> Vec<(&'static str, String)> {
    let lines: [Line; 8] = [
        ("PS", PS, |_| {}),
        ("PS, input EE on", PS, |drive| drive.inputs = Inputs::of(EE)),
        ("PS, input ES on, preset ES 1", PS, |drive| {
            drive.inputs = Inputs::of(ES);
            drive.presets.stop_blocks_start = true;
        }),
        ("ST going on", word(ST), |_| {}),
        ("ST that was on before", word(ST), |drive| drive.inputs = Inputs::of(ST)),
        ("ST going on with EE on", word(ST | EE), |_| {}),
        ("ST going on with ES on, preset ES 0", word(ST | ES), |_| {}),
        ("ST going on with ES on, preset ES 1", word(ST | ES), |drive| {
            drive.presets.stop_blocks_start = true
        }),
    ];
    lines.map(|(name, event, prepare)| (name, started(event, prepare))).to_vec()
}

fn started(event: Event, prepare: fn(&mut Drive)) -> String {
    let mut drive = idle();
    prepare(&mut drive);
    outcome(&drive, event)
}
