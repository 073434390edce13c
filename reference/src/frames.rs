//! The protocol of lists: frames on two streams, over one drive. A comment that begins with PROTOCOL
//! quotes docs/PROTOCOL.md.

use crate::image::LONGEST;
use crate::lists::perform;
use crate::memory::Drive;
use std::io::{self, Read, Write};

/// PROTOCOL: "the frame is longer than 16,385 bytes; it is read to its end and passed over"
pub const LONG_FRAME: u8 = 103;
/// PROTOCOL: "the frame is empty, its kind is none of these, or its rest has not the length of its
/// kind"
pub const WRONG_FRAME: u8 = 104;
/// PROTOCOL: "the input ended within a frame; this is the last answer"
pub const CUT_FRAME: u8 = 105;

pub const VERSION: u8 = 1;
/// The most bytes of a frame: a kind, and a list of 16,384.
pub const MOST_REQUEST: u32 = 16_385;
/// PROTOCOL: "what is seen, at most 65,536 bytes"
pub const MOST_SEEN: usize = 65_536;

/// What comes next on the input.
enum Incoming {
    Request(Vec<u8>),
    Long,
    Cut,
    End,
}

/// Serves until the input ends or the output takes no more.
pub fn serve(mut input: impl Read, mut output: impl Write) {
    // A service without its input or its output has nothing left to do and nobody to tell.
    let _ = each_frame(&mut input, &mut output);
}

fn each_frame(input: &mut impl Read, output: &mut impl Write) -> io::Result<()> {
    let Ok(mut drive) = Drive::fresh(0) else { return Ok(()) };
    loop {
        let answer = match next_frame(input)? {
            Incoming::Request(request) => respond(&mut drive, &request),
            Incoming::Long => Err(LONG_FRAME),
            Incoming::Cut => return write_frame(output, Err(CUT_FRAME)),
            Incoming::End => return Ok(()),
        };
        write_frame(output, answer)?;
    }
}

fn next_frame(input: &mut impl Read) -> io::Result<Incoming> {
    let mut length = [0; 4];
    match read_up_to(input, &mut length)? {
        0 => return Ok(Incoming::End),
        4 => {}
        _ => return Ok(Incoming::Cut),
    }
    let length = u32::from_le_bytes(length);
    if length > MOST_REQUEST {
        let passed = io::copy(&mut input.take(length.into()), &mut io::sink())?;
        let whole = passed == u64::from(length);
        return Ok(if whole { Incoming::Long } else { Incoming::Cut });
    }
    let mut request = vec![0; length as usize];
    let whole = read_up_to(input, &mut request)? == request.len();
    Ok(if whole { Incoming::Request(request) } else { Incoming::Cut })
}

/// Fills the buffer as far as the input goes. Gives how many bytes came.
fn read_up_to(input: &mut impl Read, buffer: &mut [u8]) -> io::Result<usize> {
    let mut filled = 0;
    while filled < buffer.len() {
        match input.read(&mut buffer[filled..]) {
            Ok(0) => break,
            Ok(count) => filled += count,
            Err(error) if error.kind() == io::ErrorKind::Interrupted => {}
            Err(error) => return Err(error),
        }
    }
    Ok(filled)
}

/// The rest of the answer of status 0, or another status; then the drive stays as it was.
pub fn respond(drive: &mut Drive, request: &[u8]) -> Result<Vec<u8>, u8> {
    match request {
        [b'V'] => Ok(vec![VERSION]),
        [b'F', address] => {
            *drive = Drive::fresh((*address).into())?;
            Ok(Vec::new())
        }
        [b'L', list @ ..] => perform(drive, list, MOST_SEEN),
        [b'R', image @ ..] => {
            *drive = Drive::load(image)?;
            Ok(Vec::new())
        }
        [b'X'] => {
            let mut image = vec![0; LONGEST];
            let length = drive.image(&mut image)?;
            image.truncate(length);
            Ok(image)
        }
        _ => Err(WRONG_FRAME),
    }
}

/// Handed over at once, so that who gives a frame at a time gets its answer.
fn write_frame(output: &mut impl Write, answer: Result<Vec<u8>, u8>) -> io::Result<()> {
    let (status, rest) = match answer {
        Ok(rest) => (0, rest),
        Err(status) => (status, Vec::new()),
    };
    let mut frame = Vec::with_capacity(5 + rest.len());
    frame.extend((1 + rest.len() as u32).to_le_bytes());
    frame.push(status);
    frame.extend(rest);
    output.write_all(&frame)?;
    output.flush()
}
