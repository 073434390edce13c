//! A line that hears itself: an answer that comes back would be taken for a string, which gets an
//! N, which comes back. No string that a master sends equals an answer, unless it gets N anyway; so
//! one that equals an answer sent a moment ago is an echo.

use std::collections::VecDeque;

/// So many answers are remembered, for so long.
const ANSWERS: usize = 64;
const MOMENT_MS: u64 = 5_000;

#[derive(Default)]
pub struct Echo {
    sent: VecDeque<(u64, Vec<u8>)>,
}

impl Echo {
    /// An answer goes out.
    pub fn sent(&mut self, now: u64, answer: &[u8]) {
        if self.sent.len() == ANSWERS {
            self.sent.pop_front();
        }
        self.sent.push_back((now, answer.to_vec()));
    }

    /// Whether the string is the echo of an answer. Echoes come in order: those of the answers
    /// before it will not come any more.
    pub fn is_echo(&mut self, now: u64, string: &[u8]) -> bool {
        while self.sent.front().is_some_and(|(at, _)| now > at + MOMENT_MS) {
            self.sent.pop_front();
        }
        let Some(place) = self.sent.iter().position(|(_, answer)| answer == string) else {
            return false;
        };
        self.sent.drain(..=place);
        true
    }

    pub fn clear(&mut self) {
        self.sent.clear();
    }
}

#[cfg(test)]
mod tests {
    use super::*;

    #[test]
    fn answers_that_come_back_are_echoes_once() {
        let mut echo = Echo::default();
        assert!(!echo.is_echo(0, b"00Y\r"));
        echo.sent(0, b"00Y\r");
        assert!(!echo.is_echo(1, b"00QA\r"));
        assert!(echo.is_echo(1, b"00Y\r"));
        assert!(!echo.is_echo(1, b"00Y\r"));
    }

    #[test]
    fn echoes_come_in_order() {
        let mut echo = Echo::default();
        for answer in [&b"00Y\r"[..], b"00N\r", b"00QA,+0\r"] {
            echo.sent(0, answer);
        }
        assert!(echo.is_echo(1, b"00N\r"));
        assert!(!echo.is_echo(1, b"00Y\r"));
        assert!(echo.is_echo(1, b"00QA,+0\r"));
    }

    #[test]
    fn the_window_is_bounded() {
        let mut echo = Echo::default();
        echo.sent(0, b"00Y\r");
        assert!(!echo.is_echo(MOMENT_MS + 1, b"00Y\r"));
        for count in 0..=ANSWERS {
            echo.sent(0, format!("{count}\r").as_bytes());
        }
        assert_eq!(echo.sent.len(), ANSWERS);
        assert!(!echo.is_echo(0, b"0\r"));
        assert!(echo.is_echo(0, b"1\r"));
    }
}
