//! 01, "Carrying out": waiting.

use crate::memory::Drive;

/// Which of the three ended a wait.
#[derive(Clone, Copy, PartialEq, Eq, Debug)]
pub enum End {
    Idle,
    Moving,
    Spent,
}

impl Drive {
    /// 01: "Wait: 2; 8, budget 0 or above 1,000,000."; "Waiting gives milliseconds until idle,
    /// moving or the budget is spent, judged in that order before each, says which it was, and
    /// hands back how many were given"
    pub fn wait(&mut self, budget: u32) -> Result<(End, u32), u8> {
        self.refuse_unsound()?;
        self.wait_unchecked(budget)
    }

    /// A wait on a sound drive.
    pub(crate) fn wait_unchecked(&mut self, budget: u32) -> Result<(End, u32), u8> {
        if budget == 0 || budget > 1_000_000 {
            return Err(8);
        }
        let mut given = 0;
        loop {
            if self.idle() {
                return Ok((End::Idle, given));
            }
            if self.moving() {
                return Ok((End::Moving, given));
            }
            if given == budget {
                return Ok((End::Spent, given));
            }
            self.tick();
            given += 1;
        }
    }
}
