//! The clock: a timer wakes the loop each millisecond while something is under way, and less often
//! while all is idle.

use crate::sys;
use std::fs::File;
use std::io::{self, Read};
use std::os::fd::{AsRawFd, RawFd};
use std::time::Instant;

/// The pause between two wake-ups while something is under way, and while all is idle.
const FAST_MS: u64 = 1;
const IDLE_MS: u64 = 10;

pub struct Clock {
    timer: File,
    began: Instant,
    /// Milliseconds since the start that were told.
    told: u64,
    pause: u64,
}

impl Clock {
    pub fn new() -> io::Result<Clock> {
        let timer = sys::timer()?;
        let began = Instant::now();
        sys::set_timer(&timer, FAST_MS)?;
        Ok(Clock { timer, began, told: 0, pause: FAST_MS })
    }

    pub fn descriptor(&self) -> RawFd {
        self.timer.as_raw_fd()
    }

    /// Chooses the pause between wake-ups.
    pub fn set_idle(&mut self, idle: bool) -> io::Result<()> {
        let pause = if idle { IDLE_MS } else { FAST_MS };
        if pause != self.pause {
            sys::set_timer(&self.timer, pause)?;
            self.pause = pause;
        }
        Ok(())
    }

    pub fn is_idle(&self) -> bool {
        self.pause == IDLE_MS
    }

    /// The milliseconds that have passed since this was last asked, and by how many the wake-up was
    /// late. The timer's own count would lose the part of a pause when the pause is changed.
    pub fn passed(&mut self) -> (u64, u64) {
        let mut count = [0; 8];
        // It only makes the timer wait for the next one; where there was none, it says so.
        let _ = self.timer.read(&mut count);
        let now = self.now();
        let passed = now - self.told;
        self.told = now;
        (passed, passed.saturating_sub(self.pause))
    }

    /// Milliseconds since the start.
    pub fn now(&self) -> u64 {
        self.began.elapsed().as_millis() as u64
    }
}

/// How much of the time that has passed is given to the drives, and how much is lost, where the
/// wake-up was late by so much.
pub fn made_up(passed: u64, late: u64, catch_up: u64) -> (u64, u64) {
    match late > catch_up {
        true => (catch_up, passed - catch_up),
        false => (passed, 0),
    }
}

#[cfg(test)]
mod tests {
    use super::*;
    use std::thread::sleep;
    use std::time::Duration;

    #[test]
    fn what_is_made_up() {
        assert_eq!(made_up(1, 0, 100), (1, 0));
        assert_eq!(made_up(10, 0, 5), (10, 0));
        assert_eq!(made_up(101, 100, 100), (101, 0));
        assert_eq!(made_up(2_004, 2_003, 100), (100, 1_904));
    }

    #[test]
    fn no_millisecond_is_lost_between_paces() {
        let mut clock = Clock::new().unwrap();
        let mut sum = 0;
        for idle in [true, false, true, false] {
            sleep(Duration::from_micros(1700));
            clock.set_idle(idle).unwrap();
            sum += clock.passed().0;
        }
        assert!((clock.now() - 1..=clock.now()).contains(&sum), "{sum}");
    }
}
