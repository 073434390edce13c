//! The protocol of lists: worked bytes of each word, refusals, travels and frames; and over
//! generated scripts, that a list is its calls made one by one. A drive of a test is made by the
//! notation of `common/lists.rs`.

#[path = "common/lists.rs"]
mod notation;
#[path = "common/scripts.rs"]
mod scripts;

#[path = "lists/calls.rs"]
mod calls;
#[path = "lists/coverage.rs"]
mod coverage;
#[path = "lists/frames.rs"]
mod frames;
#[path = "lists/refusals.rs"]
mod refusals;
#[path = "lists/travel.rs"]
mod travel;
#[path = "lists/words.rs"]
mod words;

use reference::lists::perform;
use reference::memory::Drive;

/// Room for whatever is seen.
const ROOM: usize = 65_536;

/// A string word with a buffer of 64 bytes; the 13 is added.
fn string(text: &str) -> Vec<u8> {
    string_with_room(64, format!("{text}\r").as_bytes())
}

fn string_with_room(room: u8, text: &[u8]) -> Vec<u8> {
    [&[b'S', room], &(text.len() as u16).to_le_bytes()[..], text].concat()
}

fn inputs_word(word: u16) -> Vec<u8> {
    [&b"I"[..], &word.to_le_bytes()].concat()
}

fn wait_word(budget: u32) -> Vec<u8> {
    [&b"W"[..], &budget.to_le_bytes()].concat()
}

fn travel_word(most: u32) -> Vec<u8> {
    [&b"G"[..], &most.to_le_bytes()].concat()
}

/// What is seen of a list that is not refused.
fn seen(drive: &mut Drive, list: &[u8]) -> Vec<u8> {
    perform(drive, list, ROOM).expect("a list that is carried out")
}

fn fresh() -> Drive {
    Drive::fresh(0).expect("01 takes address 0")
}
