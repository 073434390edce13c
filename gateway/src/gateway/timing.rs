//! Time and boards in the loop.

use super::{Gateway, BOARDS};
use crate::board::socket::Request;
use crate::clock::made_up;
use crate::drive::{Drive, Lost};
use crate::log::Level;
use std::time::Instant;

impl Gateway {
    pub(super) fn pass_time(&mut self) -> Result<(), Lost> {
        let (passed, late) = self.clock.passed();
        let began = Instant::now();
        self.metrics.late_max = self.metrics.late_max.max(late);
        let (given, lost) = made_up(passed, late, self.catch_up);
        if lost > 0 {
            self.fall_behind(given, lost)?;
        }
        self.give_time(given)?;
        self.metrics.worked(began.elapsed());
        Ok(())
    }

    /// Time is lost. A run whose steps nobody watched is stopped.
    fn fall_behind(&mut self, given: u64, lost: u64) -> Result<(), Lost> {
        self.time += lost;
        self.metrics.lost += lost;
        self.log.repeated(
            "late",
            Level::Warning,
            format!(
                "the gateway was held up for {} ms: {given} are made up, {lost} are lost",
                given + lost
            ),
        );
        for drive in self.drives.iter_mut().filter(|drive| drive.is_moving()) {
            drive.stop()?;
            self.log.warning(format!(
                "drive {:02} is stopped, since {lost} ms were lost in its run",
                drive.name
            ));
        }
        Ok(())
    }

    /// Milliseconds for each drive that is not idle.
    fn give_time(&mut self, count: u64) -> Result<(), Lost> {
        for drive in self.drives.iter_mut().filter(|drive| drive.is_busy()) {
            drive.owe(count);
        }
        let mut passed = vec![0; self.drives.len()];
        while self.drives.iter().any(Drive::is_owed) {
            for drive in self.drives.iter_mut().filter(|drive| drive.is_owed()) {
                drive.begin_milliseconds()?;
            }
            for (place, drive) in self.drives.iter_mut().enumerate() {
                if !drive.is_owed() {
                    continue;
                }
                passed[place] += drive.end_milliseconds()?;
                if let Some(trace) = &mut self.trace {
                    trace.see(drive.place, self.time + passed[place], drive);
                }
            }
        }
        self.time += count;
        self.metrics.ms += count;
        Ok(())
    }

    pub(super) fn serve_boards(&mut self) -> Result<(), Lost> {
        for (place, board) in self.boards.iter_mut().enumerate() {
            let drive = &mut self.drives[place];
            let first = BOARDS + 2 * place;
            match board.serve(&self.polls[first..first + 2]) {
                Some(Request::List(list)) => board.answer(&drive.board_list(&list)?),
                Some(Request::Wrong(status)) => {
                    self.metrics.refused += 1;
                    board.answer(&[status]);
                }
                None => {}
            }
            self.metrics.refused += std::mem::take(&mut board.refused);
            if board.has_left() && drive.is_moving() {
                drive.stop()?;
                self.log.warning(format!(
                    "drive {:02} is stopped, since its board hung up during a run",
                    drive.name
                ));
            }
        }
        Ok(())
    }
}
