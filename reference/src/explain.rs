//! `reference explain`: a script of calls, and of each string and each wait what became of it, in
//! words.

use crate::memory::Drive;
use crate::reasons::{refusal, whereabouts};
use crate::replay::{bytes, Replay};

/// A script under way.
#[derive(Default)]
pub struct Explain {
    replay: Replay,
}

impl Explain {
    /// Carries out one line, given without its line feed. Gives for a string its answer and why,
    /// for a wait its end and where the drive then is, for a V the record, nothing for other lines,
    /// or a complaint.
    pub fn line(&mut self, line: &str) -> Result<String, String> {
        let before = self.replay.drive().copied();
        let observations = self.replay.line(line)?;
        let words: Vec<&str> = line.split(' ').collect();
        let seen: Vec<&str> = observations.split(' ').collect();
        match (words.as_slice(), seen.as_slice(), before, self.replay.drive()) {
            (["S", string, ..], [refused, answer, ..], Some(before), _) => {
                Ok(format!("{answer} {}\n", why(&before, refused, &bytes(string, 256)?)))
            }
            (["W", _], [refused, _, _, end, ..], _, Some(after)) => {
                Ok(format!("{end} {}\n", whither(after, refused)))
            }
            (["V"], [_, record, ..], _, _) => Ok(format!("{record} \n")),
            _ => Ok(String::new()),
        }
    }
}

/// Why a string got N or no answer.
fn why(before: &Drive, refused: &str, string: &[u8]) -> String {
    match refused.parse() {
        Ok(number) => refusal(number).to_string(),
        Err(_) => before.explain(string).map_or_else(
            |number| refusal(number).to_string(),
            |explanation| explanation.sentence().to_string(),
        ),
    }
}

/// Where a wait has left the drive.
fn whither(after: &Drive, refused: &str) -> String {
    match refused.parse() {
        Ok(number) => refusal(number).to_string(),
        Err(_) => whereabouts(after.running),
    }
}
