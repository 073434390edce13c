//! How the loop ends: asked by a signal, or since an engine was lost. Drives that are busy are
//! stopped, and the memory is kept.

use super::{sentence, End, Gateway, FAILED};
use crate::board::socket::BoardSocket;
use crate::drive::{Drive, Lost};
use crate::signals::Signal;
use std::time::Duration;

/// After the end was begun: so long drives may slow down, answers may be taken, and all may take.
const HALT_MS: u64 = 1_500;
const ANSWERS_MS: u64 = 200;
const END_MS: u64 = 1_900;

impl Gateway {
    pub(super) fn take_signals(&mut self, now: u64) -> Result<(), Lost> {
        while let Some(signal) = self.signals.next() {
            match signal {
                Signal::Metrics => self.log_metrics(),
                Signal::End if self.ending.is_none() => self.begin_end(now)?,
                Signal::End => {}
            }
        }
        Ok(())
    }

    fn begin_end(&mut self, now: u64) -> Result<(), Lost> {
        self.ending = Some(now);
        let mut stopped = 0;
        for drive in self.drives.iter_mut().filter(|drive| drive.is_busy()) {
            drive.stop()?;
            stopped += 1;
        }
        self.log.info(format!("asked to end: emergency stop of {stopped} busy drives"));
        Ok(())
    }

    /// An engine is lost: the other drives are stopped, and the gateway ends. One of them that
    /// cannot be stopped is lost too.
    pub(super) fn lose(&mut self, lost: &Lost) {
        self.status = FAILED;
        self.ending.get_or_insert(self.clock.now());
        let mut next = self.remove_drive(lost);
        while let Some(lost) = next {
            next = self.remove_drive(&lost);
        }
    }

    /// Takes a drive out, and stops those that are left; gives the next one that is lost.
    fn remove_drive(&mut self, lost: &Lost) -> Option<Lost> {
        self.log.error(format!(
            "{}; the other drives are stopped and kept, and the gateway ends",
            sentence(lost)
        ));
        let place = self.drives.iter().position(|drive| drive.name == lost.name)?;
        self.count_keeping();
        // It does not answer any more, so it is not waited for.
        self.drives.remove(place).abandon();
        if !self.boards.is_empty() {
            self.boards.remove(place).close();
        }
        (0..self.drives.len()).find_map(|place| self.stop_and_keep(place).err())
    }

    /// Stops a drive and has its memory kept, also where the work on it was broken off.
    fn stop_and_keep(&mut self, place: usize) -> Result<(), Lost> {
        let drive = &mut self.drives[place];
        drive.settle()?;
        if drive.is_busy() {
            drive.stop()?;
        }
        self.keep(place)
    }

    /// Whether the loop may end now.
    pub(super) fn judge_end(&self, now: u64) -> Result<(), End> {
        let Some(began) = self.ending else { return Ok(()) };
        let moving = self.drives.iter().any(Drive::is_moving) && now < began + HALT_MS;
        let owed = !self.line.is_quiet() && now < began + ANSWERS_MS;
        if moving || owed {
            return Ok(());
        }
        Err(End::Asked)
    }

    pub(super) fn finish(mut self) {
        let now = self.clock.now();
        for drive in self.drives.iter().filter(|drive| drive.is_moving()) {
            self.log.warning(format!("drive {:02} has not halted", drive.name));
        }
        let until = self.ending.unwrap_or(now) + END_MS;
        if !self.keeper.finish(Duration::from_millis(until.saturating_sub(now))) {
            self.log.error("not all memory could be kept at the end");
        }
        self.hand_on_trace();
        self.write_metrics();
        self.files.finish();
        self.log_metrics();
        self.line.close();
        self.boards.iter_mut().for_each(BoardSocket::close);
        self.log.info("ended");
        // They end with the process; one that does not answer any more is not waited for.
        std::mem::forget(self.drives);
    }
}
