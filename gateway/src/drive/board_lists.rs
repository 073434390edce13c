//! Lists of a board of its own, handed on to the engine.

use super::{Drive, Lost};
use cuminhamper::List;

impl Drive {
    /// Hands a board's list on, and gives the engine's answer, status first.
    pub fn board_list(&mut self, list: &[u8]) -> Result<Vec<u8>, Lost> {
        let frame = [b"L", list].concat();
        let mut answer = Vec::new();
        let done =
            self.engine.send_frame(&frame).and_then(|()| self.engine.receive_frame(&mut answer));
        done.map_err(|error| self.lost(error))?;
        if answer.first() == Some(&0) {
            self.count_board_steps(list, &answer[1..]);
            self.busy = true;
        }
        self.make(|list| list.order().map(|_| ()))?;
        self.send()?;
        self.receive()?;
        Ok(answer)
    }

    /// The steps of a board's list. The direction is that of the order before it; a run that a list
    /// both ends and begins is set right when the drive is idle and tells its position.
    fn count_board_steps(&mut self, list: &[u8], seen: &[u8]) {
        let Ok(list) = List::parse(list) else { return };
        let mut rest = seen;
        let (mut given, mut asked) = (0, 0);
        let mut words = list.bytes();
        for letter in list.letters() {
            let (length, seen_length) = match letter {
                b'G' => (5, 5),
                b'B' => (1, 17),
                b'I' => (3, 1),
                _ => (1, 1),
            };
            if words.len() < length || rest.len() < seen_length {
                break;
            }
            match letter {
                b'G' => {
                    asked += u64::from(number(&words[1..5]));
                    given += u64::from(number(&rest[1..5]));
                }
                b'P' => {
                    asked += 1;
                    given += u64::from(rest[0] == 0);
                }
                _ => {}
            }
            (words, rest) = (&words[length..], &rest[seen_length..]);
        }
        self.travelled(given as u32);
        self.overrun += asked - given;
    }
}

fn number(bytes: &[u8]) -> u32 {
    bytes.iter().rev().fold(0, |sum, byte| sum << 8 | u32::from(*byte))
}

#[cfg(test)]
mod tests {
    use super::*;

    #[test]
    fn numbers_are_little_endian() {
        assert_eq!(number(&[1, 2, 0, 0]), 513);
        assert_eq!(number(&[255; 4]), u32::MAX);
    }
}
