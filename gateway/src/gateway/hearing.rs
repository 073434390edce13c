//! The line in the loop: strings go to all drives, and the answer of one goes back.

use super::{Gateway, BOARDS, LINE};
use crate::drive::Lost;
use crate::log::Level;
use std::time::{Duration, Instant};

/// The strings of one turn at most; they go to each drive in one list.
const STRINGS: usize = 16;
/// The part of each millisecond that may go to strings. A flood of them does not hold the clock up,
/// nor make the system take the processor from a process that is always busy.
const PART: Duration = Duration::from_micros(500);

/// How much of the present millisecond has gone to strings.
#[derive(Default)]
pub(super) struct Share {
    millisecond: u64,
    spent: Duration,
}

impl Share {
    /// A millisecond has begun, if it is another.
    pub(super) fn begin(&mut self, now: u64) {
        if now != self.millisecond {
            *self = Share { millisecond: now, spent: Duration::ZERO };
        }
    }

    pub(super) fn is_left(&self) -> bool {
        self.spent < PART
    }
}

/// What the drives have answered to a string.
enum Said {
    Nothing,
    One(Vec<u8>),
    Several,
}

impl Said {
    fn add(&mut self, answer: &[u8]) {
        *self = match self {
            _ if answer.is_empty() => return,
            Said::Nothing => Said::One(answer.to_vec()),
            Said::One(_) | Said::Several => Said::Several,
        };
    }
}

impl Gateway {
    pub(super) fn serve_line(&mut self, now: u64) -> Result<(), Lost> {
        if self.is_listening() {
            self.line.serve(&self.polls[LINE..BOARDS], now);
            let strings: Vec<Vec<u8>> =
                std::iter::from_fn(|| self.line.next_string(now)).take(STRINGS).collect();
            if !strings.is_empty() {
                let began = Instant::now();
                self.give_strings(&strings, now)?;
                self.share.spent += began.elapsed();
            }
        }
        self.line.write(now);
        self.line.pass(now);
        let notices = self.line.take_notices();
        self.metrics.dropped += notices.dropped;
        self.metrics.reconnects += notices.reconnects;
        self.metrics.refused += notices.refused;
        if notices.refused > 0 {
            self.log.repeated(
                "second",
                Level::Warning,
                "a second client of the line was refused: one at a time is served",
            );
        }
        if let Some(warning) = notices.warning {
            self.log.repeated("line", Level::Warning, warning);
        }
        Ok(())
    }

    /// All drives hear every string, and at most one answers.
    fn give_strings(&mut self, strings: &[Vec<u8>], now: u64) -> Result<(), Lost> {
        for drive in &mut self.drives {
            drive.send_strings(strings)?;
        }
        // Address 99 is never answered, and its WS changes presets all the same.
        let presets = strings.iter().any(|string| string.starts_with(b"99WS"));
        let mut said: Vec<Said> = strings.iter().map(|_| Said::Nothing).collect();
        for place in 0..self.drives.len() {
            let mut changed = presets;
            for (said, answer) in said.iter_mut().zip(self.drives[place].receive_answers()?) {
                changed = changed || answer.ends_with(b"Y\r");
                said.add(answer);
            }
            if changed {
                self.follow_change(place)?;
            }
        }
        for (string, said) in strings.iter().zip(said) {
            self.reply(string, said, now);
        }
        Ok(())
    }

    fn reply(&mut self, string: &[u8], said: Said, now: u64) {
        self.metrics.strings += 1;
        self.line.drop_untaken(now);
        match said {
            Said::Nothing => self.metrics.silent += 1,
            Said::One(answer) => self.metrics.answers += u64::from(self.line.answer(now, &answer)),
            Said::Several => self.collide(string),
        }
        self.line.write(now);
    }

    fn collide(&mut self, string: &[u8]) {
        self.metrics.collisions += 1;
        let address = String::from_utf8_lossy(&string[..2.min(string.len())]);
        self.log.repeated(
            "collision",
            Level::Warning,
            format!(
                "several drives have address {address}, and none of their answers was sent: end \
                 the gateway and give one of them another address (docs/OPERATIONS.md, Memory)"
            ),
        );
    }

    /// A string has changed the drive: a program may be under way, and the memory may be another.
    fn follow_change(&mut self, place: usize) -> Result<(), Lost> {
        self.drives[place].mark_busy();
        self.keep(place)
    }

    /// Has the image of a drive kept, if it is another than before.
    pub(super) fn keep(&mut self, place: usize) -> Result<(), Lost> {
        let drive = &mut self.drives[place];
        let image = drive.image()?;
        if image != self.images[drive.place] {
            self.keeper.keep(drive.place, image.clone());
            self.images[drive.place] = image;
        }
        Ok(())
    }
}

#[cfg(test)]
mod tests {
    use super::*;

    #[test]
    fn strings_have_their_part_of_each_millisecond() {
        let mut share = Share::default();
        share.begin(7);
        share.spent += PART / 2;
        assert!(share.is_left());
        share.spent += PART / 2;
        share.begin(7);
        assert!(!share.is_left());
        share.begin(8);
        assert!(share.is_left());
    }

    #[test]
    fn two_answers_are_none() {
        let mut said = Said::Nothing;
        said.add(b"");
        assert!(matches!(said, Said::Nothing));
        said.add(b"00Y\r");
        said.add(b"");
        assert!(matches!(&said, Said::One(answer) if answer == b"00Y\r"));
        said.add(b"00Y\r");
        assert!(matches!(said, Said::Several));
        said.add(b"00N\r");
        assert!(matches!(said, Said::Several));
    }
}
