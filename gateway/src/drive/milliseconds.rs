//! Milliseconds of a drive, with what its simulated board makes of them.

use super::{Drive, Lost};
use crate::board::simulated::{Move, Report};
use cuminhamper::{Motion, Seen, ANSWER_ROOM};

/// The milliseconds of one list at most.
const AT_ONCE: u64 = 32;

impl Drive {
    /// The drive is to be given milliseconds.
    pub fn owe(&mut self, count: u64) {
        self.owed = count;
    }

    pub fn is_owed(&self) -> bool {
        self.owed > 0
    }

    /// Sends what the next milliseconds bring, as many as go into one list. A millisecond leaves a
    /// drive with a run under way as it is, so the steps of several are given at once, up to where
    /// the board has something to report or the run ends.
    pub fn begin_milliseconds(&mut self) -> Result<(), Lost> {
        let most = self.owed.min(AT_ONCE);
        let motion = self.shown.order.motion;
        self.planned = match &mut self.board {
            Some(board) if motion != Motion::Stand => Some(board.plan(motion, most)),
            _ => None,
        };
        match self.planned {
            Some(planned) => self.make_moving(planned)?,
            None => self.make_standing(most)?,
        }
        self.send()
    }

    /// Where the board will report something, the last millisecond comes after the report.
    fn make_moving(&mut self, planned: Move) -> Result<(), Lost> {
        self.make(|list| {
            for _ in 1..planned.ms {
                list.millisecond()?;
            }
            if planned.steps > 0 {
                list.travel(planned.steps)?.order()?;
            }
            if planned.report.is_none() {
                list.millisecond()?.order()?;
            }
            Ok(())
        })
    }

    /// The order is looked at after each, and at last the position is asked for: a busy drive does
    /// not answer.
    fn make_standing(&mut self, count: u64) -> Result<(), Lost> {
        let question = format!("{:02}QA\r", self.address);
        self.make(|list| {
            for _ in 0..count {
                list.millisecond()?.order()?;
            }
            list.string(question.as_bytes(), ANSWER_ROOM).map(|_| ())
        })
    }

    /// Takes what the drive shows of the milliseconds, and goes on with what is left of the steps.
    /// Tells how many milliseconds these were.
    pub fn end_milliseconds(&mut self) -> Result<u64, Lost> {
        self.receive()?;
        let passed = match self.planned.take() {
            Some(planned) => {
                self.finish_steps(planned.steps)?;
                if let Some(report) = planned.report {
                    self.report(report)?;
                }
                planned.ms
            }
            None => self.stood(),
        };
        self.owed = self.owed.saturating_sub(passed);
        Ok(passed)
    }

    /// The milliseconds up to where a run began; the board has made nothing of the others yet, and
    /// they have changed nothing. An idle drive is owed none.
    fn stood(&mut self) -> u64 {
        if let Some(Seen::String(Ok(answer))) = self.seen.last() {
            if let Some(position) = position_of(answer) {
                (self.busy, self.position) = (false, position);
                return self.owed;
            }
        }
        let orders = self.seen.iter().filter_map(|word| match word {
            Seen::Order(shown) => Some(shown.order.motion),
            _ => None,
        });
        let count = orders.clone().count();
        let began = orders.clone().position(|motion| motion != Motion::Stand);
        match (began, &self.board) {
            (Some(place), Some(_)) => place as u64 + 1,
            _ => count as u64,
        }
    }

    /// A travel ends where an output changes; the steps after it are made then. What is left when
    /// the run is over is not taken.
    fn finish_steps(&mut self, planned: u32) -> Result<(), Lost> {
        let mut left = planned;
        while left > 0 {
            let Some((given, run_over)) = travel_of(&self.seen) else { break };
            left -= given.min(left);
            if left > 0 && (run_over || given == 0) {
                break;
            }
            if left > 0 {
                self.make(|list| list.travel(left)?.order().map(|_| ()))?;
                self.send()?;
                self.receive()?;
            }
        }
        self.overrun += u64::from(left);
        Ok(())
    }

    /// What the board reports, where the drive takes it, and the millisecond itself.
    fn report(&mut self, report: Report) -> Result<(), Lost> {
        let ramp = self.shown.order.run().is_some_and(|run| run.ramp != 0);
        let slowing = self.shown.order.motion == Motion::Slow;
        self.make(|list| {
            match report {
                Report::AtSpeed if ramp => list.at_speed()?,
                Report::Halted if slowing => list.halted()?,
                Report::AtSpeed | Report::Halted => list,
            };
            list.millisecond()?.order().map(|_| ())
        })?;
        self.send()?;
        self.receive()
    }
}

/// What the first travel of a list gave, and whether the run is over after it.
fn travel_of(seen: &[Seen]) -> Option<(u32, bool)> {
    seen.windows(2).find_map(|words| match words {
        [Seen::Travel(given), Seen::Order(shown)] => {
            Some((*given, shown.order.motion == Motion::Stand))
        }
        _ => None,
    })
}

/// The position that a QA is answered with.
fn position_of(answer: &[u8]) -> Option<i32> {
    let text = std::str::from_utf8(answer).ok()?;
    text.get(2..)?.strip_prefix("QA,")?.strip_suffix('\r')?.parse().ok()
}

#[cfg(test)]
mod tests {
    use super::*;

    #[test]
    fn positions() {
        assert_eq!(position_of(b"00QA,+0\r"), Some(0));
        assert_eq!(position_of(b"47QA,-2147483648\r"), Some(i32::MIN));
        assert_eq!(position_of(b""), None);
        assert_eq!(position_of(b"00N\r"), None);
    }
}
