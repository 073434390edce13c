//! The protocol of lists: calls as bytes, many in one list, and what is seen of them as bytes. The
//! drive is checked once for the whole list. A comment that begins with PROTOCOL quotes
//! docs/PROTOCOL.md.

use crate::board::Order;
use crate::memory::{Drive, Outputs, OUTPUT_NAMES};
use crate::wait::End;

/// PROTOCOL: "a word begins with a byte that is none of the nine letters"
pub const UNKNOWN_WORD: u8 = 100;
/// PROTOCOL: "the list ends within a word"
pub const CUT_WORD: u8 = 101;
/// PROTOCOL: "the buffer for what is seen has fewer bytes than the last column adds up to"
pub const SHORT_BUFFER: u8 = 102;

/// One word of a list.
#[derive(Clone, Copy, PartialEq, Eq, Debug)]
pub enum Word<'a> {
    String { room: u8, text: &'a [u8] },
    Inputs(u16),
    Millisecond,
    Step,
    AtSpeed,
    Halted,
    Wait(u32),
    Order,
    Travel(u32),
}

/// Carries a list out. Gives what is seen, or the number of the refusal; then nothing is changed.
/// `room` is the length of the buffer that the caller has for what is seen.
pub fn perform(drive: &mut Drive, list: &[u8], room: usize) -> Result<Vec<u8>, u8> {
    drive.refuse_unsound()?;
    let mut seen = Vec::with_capacity(most_seen(list, room)?);
    for word in words(list).flatten() {
        word.carry_out(drive, &mut seen);
    }
    Ok(seen)
}

/// PROTOCOL: "The first word at which one of the last three holds decides, and there the least
/// number." Gives the sum of the last column.
fn most_seen(list: &[u8], room: usize) -> Result<usize, u8> {
    words(list).try_fold(0, |sum, word| {
        let sum = sum + word?.most();
        if sum > room {
            return Err(SHORT_BUFFER);
        }
        Ok(sum)
    })
}

/// The words of a list, up to the first that is none.
pub fn words(list: &[u8]) -> Words<'_> {
    Words { rest: list }
}

pub struct Words<'a> {
    rest: &'a [u8],
}

impl<'a> Iterator for Words<'a> {
    type Item = Result<Word<'a>, u8>;

    fn next(&mut self) -> Option<Result<Word<'a>, u8>> {
        let (&letter, mut rest) = self.rest.split_first()?;
        let word = Word::read(letter, &mut rest);
        self.rest = if word.is_ok() { rest } else { &[] };
        Some(word)
    }
}

impl<'a> Word<'a> {
    /// Reads what follows the letter of a word.
    fn read(letter: u8, rest: &mut &'a [u8]) -> Result<Word<'a>, u8> {
        Ok(match letter {
            b'S' => {
                let [room] = *bytes(rest)?;
                let length = u16::from_le_bytes(*bytes(rest)?);
                Word::String { room, text: slice(rest, length.into())? }
            }
            b'I' => Word::Inputs(u16::from_le_bytes(*bytes(rest)?)),
            b'M' => Word::Millisecond,
            b'P' => Word::Step,
            b'A' => Word::AtSpeed,
            b'H' => Word::Halted,
            b'W' => Word::Wait(u32::from_le_bytes(*bytes(rest)?)),
            b'B' => Word::Order,
            b'G' => Word::Travel(u32::from_le_bytes(*bytes(rest)?)),
            _ => return Err(UNKNOWN_WORD),
        })
    }

    /// PROTOCOL: the column "at most".
    pub fn most(&self) -> usize {
        match self {
            Word::String { .. } => 66,
            Word::Inputs(_) | Word::Millisecond => 1,
            Word::Step | Word::AtSpeed | Word::Halted => 1,
            Word::Wait(_) => 6,
            Word::Order => 17,
            Word::Travel(_) => 5,
        }
    }

    /// Carries the word out on a sound drive and appends what is seen of it.
    fn carry_out(&self, drive: &mut Drive, seen: &mut Vec<u8>) {
        match *self {
            Word::String { room, text } => see_string(drive, room, text, seen),
            Word::Inputs(word) => see_refusal(drive.inputs_unchecked(word.into()), seen),
            Word::Millisecond => {
                drive.tick();
                see_refusal(Ok(()), seen);
            }
            Word::Step => see_refusal(drive.step_unchecked(), seen),
            Word::AtSpeed => see_refusal(drive.at_speed_unchecked(), seen),
            Word::Halted => see_refusal(drive.halted_unchecked(), seen),
            Word::Wait(budget) => see_wait(drive.wait_unchecked(budget), seen),
            Word::Order => see_order(drive, seen),
            Word::Travel(most) => {
                seen.push(0);
                seen.extend(travel(drive, most).to_le_bytes());
            }
        }
    }
}

fn bytes<'a, const N: usize>(rest: &mut &'a [u8]) -> Result<&'a [u8; N], u8> {
    let (bytes, after) = rest.split_first_chunk().ok_or(CUT_WORD)?;
    *rest = after;
    Ok(bytes)
}

fn slice<'a>(rest: &mut &'a [u8], length: usize) -> Result<&'a [u8], u8> {
    let (slice, after) = rest.split_at_checked(length).ok_or(CUT_WORD)?;
    *rest = after;
    Ok(slice)
}

fn see_refusal(done: Result<(), u8>, seen: &mut Vec<u8>) {
    seen.push(done.err().unwrap_or(0));
}

/// PROTOCOL: "refusal(1) length(1) answer"; "A string that is silent or refused has length 0."
fn see_string(drive: &mut Drive, room: u8, text: &[u8], seen: &mut Vec<u8>) {
    let mut buffer = [0; 255];
    let told = drive.string_unchecked(text, &mut buffer[..room.into()]);
    let length = told.ok().flatten().unwrap_or(0);
    // No answer is longer than 64 bytes.
    seen.extend([told.err().unwrap_or(0), length as u8]);
    seen.extend(&buffer[..length]);
}

/// PROTOCOL: "`end` is 0 where the wait was refused, 1 idle, 2 moving, 3 spent."
fn see_wait(waited: Result<(End, u32), u8>, seen: &mut Vec<u8>) {
    let (refusal, end, given) = match waited {
        Ok((End::Idle, given)) => (0, 1, given),
        Ok((End::Moving, given)) => (0, 2, given),
        Ok((End::Spent, given)) => (0, 3, given),
        Err(refusal) => (refusal, 0, 0),
    };
    seen.extend([refusal, end]);
    seen.extend(given.to_le_bytes());
}

fn see_order(drive: &Drive, seen: &mut Vec<u8>) {
    seen.push(0);
    seen.extend(order_bytes(drive.order_unchecked()));
    seen.extend(output_bits(&drive.outputs).to_le_bytes());
}

/// PROTOCOL: "An order is kind(1) current(1) signals(1) ramp(1) hertz(4) rest(4)"
pub fn order_bytes(order: Order) -> [u8; 12] {
    let signals = |cu, fc, backward| u8::from(cu) | u8::from(fc) << 1 | u8::from(backward) << 2;
    let (head, hertz, rest) = match order {
        Order::Stand { current, cu, fc } => ([0, current, signals(cu, fc, false), 0], 0, 0),
        Order::Slow { current, cu, fc } => ([1, current, signals(cu, fc, false), 0], 0, 0),
        Order::Run { forward, hertz, ramp, remaining, current, cu, fc } => {
            ([2, current, signals(cu, fc, !forward), ramp], hertz, remaining)
        }
    };
    let mut bytes = [0; 12];
    bytes[..4].copy_from_slice(&head);
    bytes[4..8].copy_from_slice(&hertz.to_le_bytes());
    bytes[8..].copy_from_slice(&rest.to_le_bytes());
    bytes
}

/// PROTOCOL: "Outputs are 14 bits, from bit 0: O0 to O3, FC, F0 to F7, CU"
pub fn output_bits(outputs: &Outputs) -> u32 {
    (0..OUTPUT_NAMES.len()).map(|place| u32::from(outputs.get(place)) << place).sum()
}

/// PROTOCOL: "steps: until n are given, the run is over, the present cell is another or an output
/// has changed"; "with no run under way it gives none". Gives how many were given.
pub(crate) fn travel(drive: &mut Drive, most: u32) -> u32 {
    let (cell, outputs) = (drive.running.cell, drive.outputs);
    let mut given = 0;
    while given < most && drive.running.cell == cell && drive.outputs == outputs {
        if drive.step_unchecked().is_err() {
            break;
        }
        given += 1;
    }
    given
}
