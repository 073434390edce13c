//! Strings out of bytes: each ends in byte 13. Of a longer one the first 64 bytes and the 13 are
//! given, which the drives answer by N; the buffer never grows.

pub const CARRIAGE_RETURN: u8 = 13;
/// The bytes of a string that are kept before its 13.
const KEPT: usize = 64;

#[derive(Default)]
pub struct Assembler {
    held: Vec<u8>,
    over: u64,
}

impl Assembler {
    /// The string that this byte ends, with its 13.
    pub fn push(&mut self, byte: u8) -> Option<Vec<u8>> {
        if byte == CARRIAGE_RETURN {
            self.held.push(CARRIAGE_RETURN);
            return Some(std::mem::take(&mut self.held));
        }
        if self.held.len() < KEPT {
            self.held.push(byte);
        } else {
            self.over += 1;
        }
        None
    }

    pub fn begun(&self) -> bool {
        !self.held.is_empty()
    }

    /// Drops what was begun, and tells how many bytes of it were kept.
    pub fn drop_half(&mut self) -> u64 {
        let count = self.held.len() as u64;
        self.held.clear();
        count
    }

    /// The bytes beyond those that are kept, since this was last asked.
    pub fn take_over(&mut self) -> u64 {
        std::mem::take(&mut self.over)
    }
}

#[cfg(test)]
mod tests {
    use super::*;

    fn strings(assembler: &mut Assembler, bytes: &[u8]) -> Vec<Vec<u8>> {
        bytes.iter().filter_map(|byte| assembler.push(*byte)).collect()
    }

    #[test]
    fn strings_in_pieces() {
        let mut assembler = Assembler::default();
        assert!(strings(&mut assembler, b"00Q").is_empty());
        assert!(assembler.begun());
        assert_eq!(strings(&mut assembler, b"A\r01QA\r\r0"), [&b"00QA\r"[..], b"01QA\r", b"\r"]);
        assert_eq!(assembler.drop_half(), 1);
        assert!(!assembler.begun());
        assert_eq!(strings(&mut assembler, b"00QA\r"), [b"00QA\r"]);
    }

    #[test]
    fn long_strings_keep_64_bytes_and_the_13() {
        let mut assembler = Assembler::default();
        let mut bytes = vec![b'x'; 64];
        bytes.push(13);
        assert_eq!(strings(&mut assembler, &bytes), [bytes.clone()]);
        assert_eq!(assembler.take_over(), 0);
        let long = [&[b'x'; 1000][..], b"\r"].concat();
        assert_eq!(strings(&mut assembler, &long), [bytes]);
        assert_eq!(assembler.take_over(), 936);
        assert_eq!(assembler.take_over(), 0);
        assert_eq!(strings(&mut assembler, b"00QA\r"), [b"00QA\r"]);
    }
}
