//! 01, "Bench strings and near misses": the console program.

use crate::memory::Drive;
use crate::serial::CARRIAGE_RETURN;
use std::io::{self, BufReader, Read, Write};

/// Serves until the input ends or the output takes no more.
pub fn console(input: impl Read, output: impl Write) {
    // A console without its input or its output has nothing left to do and nobody to tell.
    let _ = serve(input, output);
}

/// 01: "strings from standard input, each given to one drive of address 00, then a wait of 1,000;
/// of a longer string the first 64 bytes and the 13 are given, and bytes after the last 13 are
/// dropped"
fn serve(input: impl Read, mut output: impl Write) -> io::Result<()> {
    let Ok(mut drive) = Drive::fresh(0) else { return Ok(()) };
    let mut string = Vec::new();
    for byte in BufReader::new(input).bytes() {
        let byte = byte?;
        if byte == CARRIAGE_RETURN {
            string.push(byte);
            answer(&mut drive, &string, &mut output)?;
            string.clear();
        } else if string.len() < 64 {
            string.push(byte);
        }
    }
    Ok(())
}

fn answer(drive: &mut Drive, string: &[u8], output: &mut impl Write) -> io::Result<()> {
    let mut buffer = [0; 64];
    if let Ok(Some(length)) = drive.string(string, &mut buffer) {
        output.write_all(&buffer[..length])?;
        output.flush()?;
    }
    // A refusal can't happen: the drive is sound and the budget within its bounds.
    let _ = drive.wait(1_000);
    Ok(())
}
