//! Answers on their way out: a bounded queue, each answer due at its time.

use std::collections::VecDeque;

/// The bytes that may wait.
const ROOM: usize = 4096;

#[derive(Default)]
pub struct Outgoing {
    answers: VecDeque<Answer>,
    /// The bytes of the first answer that were taken.
    taken: usize,
    waiting: usize,
}

struct Answer {
    due: u64,
    bytes: Vec<u8>,
}

impl Outgoing {
    /// Adds an answer; false where there is no room for it.
    pub fn push(&mut self, due: u64, bytes: &[u8]) -> bool {
        if self.waiting + bytes.len() > ROOM {
            return false;
        }
        self.waiting += bytes.len();
        self.answers.push_back(Answer { due, bytes: bytes.to_vec() });
        true
    }

    /// The bytes that are to be written now.
    pub fn due(&self, now: u64) -> Option<&[u8]> {
        let first = self.answers.front().filter(|answer| answer.due <= now)?;
        Some(&first.bytes[self.taken..])
    }

    /// So many of the due bytes were taken.
    pub fn take(&mut self, count: usize) {
        self.taken += count;
        self.waiting -= count;
        if self.answers.front().is_some_and(|first| self.taken >= first.bytes.len()) {
            self.answers.pop_front();
            self.taken = 0;
        }
    }

    /// Drops the answers that were due and of which nothing was taken: nobody reads them. One that
    /// was begun stays, so that no torn answer is on the line. Tells how many bytes were dropped.
    pub fn drop_untaken(&mut self, now: u64) -> u64 {
        let begun = usize::from(self.taken > 0);
        let before = self.waiting;
        let mut place = 0;
        self.answers.retain(|answer| {
            let kept = place < begun || answer.due > now;
            place += 1;
            kept
        });
        self.waiting =
            self.answers.iter().map(|answer| answer.bytes.len()).sum::<usize>() - self.taken;
        (before - self.waiting) as u64
    }

    /// Drops all, and tells how many bytes.
    pub fn clear(&mut self) -> u64 {
        let count = self.waiting as u64;
        *self = Outgoing::default();
        count
    }

    pub fn is_empty(&self) -> bool {
        self.answers.is_empty()
    }
}

#[cfg(test)]
mod tests {
    use super::*;

    #[test]
    fn answers_go_in_order_when_due() {
        let mut outgoing = Outgoing::default();
        assert!(outgoing.push(5, b"00Y\r") && outgoing.push(5, b"00N\r"));
        assert_eq!(outgoing.due(4), None);
        assert_eq!(outgoing.due(5), Some(&b"00Y\r"[..]));
        outgoing.take(3);
        assert_eq!(outgoing.due(5), Some(&b"\r"[..]));
        outgoing.take(1);
        assert_eq!(outgoing.due(5), Some(&b"00N\r"[..]));
        outgoing.take(4);
        assert!(outgoing.is_empty());
    }

    #[test]
    fn untaken_answers_are_dropped_and_a_begun_one_is_not() {
        let mut outgoing = Outgoing::default();
        for (due, answer) in [(1, b"01Y\r"), (2, b"02Y\r"), (9, b"03Y\r")] {
            assert!(outgoing.push(due, answer));
        }
        outgoing.take(1);
        assert_eq!(outgoing.drop_untaken(3), 4);
        assert_eq!(outgoing.due(9), Some(&b"1Y\r"[..]));
        outgoing.take(3);
        assert_eq!(outgoing.due(9), Some(&b"03Y\r"[..]));
        assert_eq!(outgoing.drop_untaken(9), 4);
        assert!(outgoing.is_empty());
    }

    #[test]
    fn the_queue_is_bounded() {
        let mut outgoing = Outgoing::default();
        let taken = (0..100).filter(|_| outgoing.push(0, &[b'x'; 64])).count();
        assert_eq!(taken, ROOM / 64);
        assert_eq!(outgoing.clear(), ROOM as u64);
        assert!(outgoing.push(0, b"00Y\r"));
    }
}
