//! A board on a socket of its own: frames of lists come, and each gets an answer. One board at a
//! time; a second one is closed at once. The next frame is read when the answer before it is taken.

use crate::line::unix_listener;
use crate::sys::{self, PollFd, POLLERR, POLLHUP, POLLIN, POLLOUT, POLLRDHUP};
use std::ffi::c_short;
use std::fs;
use std::io::{ErrorKind, Read, Write};
use std::os::fd::AsRawFd;
use std::os::unix::net::{UnixListener, UnixStream};
use std::path::{Path, PathBuf};

const HEAD: usize = 4;
/// The bytes of a frame, its kind and a list.
const FRAME: usize = 16_385;
pub const LONG_FRAME: u8 = 103;
pub const WRONG_FRAME: u8 = 104;

/// A second at 96,000 Hz. The loop waits for a list, so what a board may ask of one is bounded.
const MOST_STEPS: u64 = 96_000;
pub const CUT_FRAME: u8 = 105;

/// What a board has sent.
#[derive(Debug, PartialEq)]
pub enum Request {
    /// A list of words that boards may give.
    List(Vec<u8>),
    /// A frame that is not handed on, with the status of its answer.
    Wrong(u8),
}

pub struct BoardSocket {
    listener: UnixListener,
    path: PathBuf,
    board: Option<Board>,
    pub refused: u64,
}

struct Board {
    stream: UnixStream,
    incoming: Incoming,
    answer: Vec<u8>,
    taken: usize,
    /// Set where the board has ended its side or cannot be written to.
    ended: bool,
}

impl BoardSocket {
    pub fn open(directory: &Path, address: u8) -> Result<BoardSocket, String> {
        let path = directory.join(format!("{address:02}"));
        let listener = unix_listener(&path)?;
        Ok(BoardSocket { listener, path, board: None, refused: 0 })
    }

    pub fn close(&mut self) {
        // It may be gone already, which is what is wanted.
        let _ = fs::remove_file(&self.path);
    }

    /// The descriptors to poll: the listener's, then the board's.
    pub fn polls(&self) -> [PollFd; 2] {
        let listener = PollFd { fd: self.listener.as_raw_fd(), events: POLLIN, revents: 0 };
        let board = match &self.board {
            Some(board) => {
                PollFd { fd: board.stream.as_raw_fd(), events: board.events(), revents: 0 }
            }
            None => PollFd { fd: -1, events: 0, revents: 0 },
        };
        [listener, board]
    }

    /// Takes what is there; the next request, if it is whole.
    pub fn serve(&mut self, polls: &[PollFd]) -> Option<Request> {
        if polls[0].revents != 0 {
            self.accept();
        }
        let board = self.board.as_mut()?;
        if polls[1].revents != 0 {
            board.exchange();
        }
        if board.is_answering() || board.ended && board.incoming.is_between() {
            return None;
        }
        board.incoming.next(board.ended)
    }

    fn accept(&mut self) {
        let gone = self.board.as_ref().is_some_and(|board| {
            let ready = sys::poll_one(board.stream.as_raw_fd(), POLLRDHUP);
            ready & (POLLRDHUP | POLLHUP | POLLERR) != 0
        });
        // One that has left is read to its end first; the new one waits until then.
        if gone {
            return;
        }
        let Ok((stream, _)) = self.listener.accept() else { return };
        if self.board.is_some() || stream.set_nonblocking(true).is_err() {
            self.refused += 1;
            return;
        }
        let incoming = Incoming::default();
        self.board = Some(Board { stream, incoming, answer: Vec::new(), taken: 0, ended: false });
    }

    /// Whether a whole request may be there without anything being read.
    pub fn at_work(&self) -> bool {
        self.board.as_ref().is_some_and(|board| !board.is_answering() && board.incoming.has_whole())
    }

    /// The answer to the last request, status first.
    pub fn answer(&mut self, answer: &[u8]) {
        let Some(board) = &mut self.board else { return };
        board.answer.clear();
        board.answer.extend_from_slice(&(answer.len() as u32).to_le_bytes());
        board.answer.extend_from_slice(answer);
        board.taken = 0;
        board.write();
    }

    /// Whether the board has just left; told once.
    pub fn has_left(&mut self) -> bool {
        let left = self.board.as_ref().is_some_and(|board| {
            board.ended && !board.is_answering() && board.incoming.is_between()
        });
        if left {
            self.board = None;
        }
        left
    }
}

impl Board {
    fn is_answering(&self) -> bool {
        self.taken < self.answer.len()
    }

    /// Nothing is read while a whole frame waits, so that no more than it and a portion is held.
    fn events(&self) -> c_short {
        match self.is_answering() {
            true => POLLOUT,
            false if self.incoming.has_whole() || self.ended => 0,
            false => POLLIN,
        }
    }

    fn exchange(&mut self) {
        if self.is_answering() {
            return self.write();
        }
        if self.events() != POLLIN {
            return;
        }
        let mut bytes = [0; 4096];
        match self.stream.read(&mut bytes) {
            Ok(0) => self.ended = true,
            Ok(count) => self.incoming.push(&bytes[..count]),
            Err(error) if transient(error.kind()) => {}
            Err(_) => self.lose(),
        }
    }

    fn write(&mut self) {
        while self.is_answering() {
            match self.stream.write(&self.answer[self.taken..]) {
                Ok(count) => self.taken += count,
                Err(error) if transient(error.kind()) => return,
                Err(_) => return self.lose(),
            }
        }
    }

    /// The board is gone; nothing of it is kept.
    fn lose(&mut self) {
        (self.ended, self.taken) = (true, self.answer.len());
        self.incoming = Incoming::default();
    }
}

fn transient(kind: ErrorKind) -> bool {
    matches!(kind, ErrorKind::WouldBlock | ErrorKind::Interrupted)
}

/// Frames out of bytes. At most a frame and one portion that was read are held.
#[derive(Default)]
struct Incoming {
    bytes: Vec<u8>,
    /// The bytes of a frame that is too long, which are still to be passed over.
    passing: usize,
}

impl Incoming {
    fn push(&mut self, bytes: &[u8]) {
        let passed = self.passing.min(bytes.len());
        self.passing -= passed;
        self.bytes.extend_from_slice(&bytes[passed..]);
    }

    /// Whether nothing of a frame is there.
    fn is_between(&self) -> bool {
        self.bytes.is_empty() && self.passing == 0
    }

    /// The length of the frame that is there, as its head has it.
    fn length(&self) -> Option<usize> {
        let head = self.bytes.get(..HEAD)?;
        Some(u32::from_le_bytes([head[0], head[1], head[2], head[3]]) as usize)
    }

    fn has_whole(&self) -> bool {
        self.passing == 0
            && self
                .length()
                .is_some_and(|length| length > FRAME || self.bytes.len() >= HEAD + length)
    }

    /// The next request; after the end, what is left of a frame is a cut one.
    fn next(&mut self, ended: bool) -> Option<Request> {
        if self.has_whole() {
            let length = self.length().unwrap_or(0);
            return Some(self.take(length));
        }
        if ended && !self.is_between() {
            *self = Incoming::default();
            return Some(Request::Wrong(CUT_FRAME));
        }
        None
    }

    fn take(&mut self, length: usize) -> Request {
        let there = self.bytes.len().min(HEAD + length);
        let frame: Vec<u8> = self.bytes.drain(..there).skip(HEAD).collect();
        self.passing = HEAD + length - there;
        if length > FRAME {
            return Request::Wrong(LONG_FRAME);
        }
        match frame.split_first() {
            Some((b'L', list)) if only_board_words(list) => Request::List(list.to_vec()),
            _ => Request::Wrong(WRONG_FRAME),
        }
    }
}

/// Whether a list has no word but those of a board and asks for no more steps than a board makes in a
/// second, as far as its words can be read; what is wrong with the rest, the engine says.
fn only_board_words(list: &[u8]) -> bool {
    let mut rest = list;
    let mut steps = 0;
    while let Some(letter) = rest.first() {
        let length = match letter {
            b'P' | b'A' | b'H' | b'B' => 1,
            b'I' => 3,
            b'G' => 5,
            b'S' | b'M' | b'W' => return false,
            _ => return true,
        };
        if let (b'G', Some(&[a, b, c, d])) = (letter, rest.get(1..5)) {
            steps += u64::from(u32::from_le_bytes([a, b, c, d]));
        }
        rest = rest.get(length..).unwrap_or(&[]);
    }
    steps <= MOST_STEPS
}

#[cfg(test)]
mod tests {
    use super::*;

    fn frame(body: &[u8]) -> Vec<u8> {
        [&(body.len() as u32).to_le_bytes()[..], body].concat()
    }

    fn requests(incoming: &mut Incoming, ended: bool) -> Vec<Request> {
        std::iter::from_fn(|| incoming.next(ended)).collect()
    }

    #[test]
    fn lists_of_boards_are_handed_on_and_others_are_not() {
        let mut incoming = Incoming::default();
        for body in
            [&b"LPAHB"[..], b"LI\x01\x02G\x05\0\0\0", b"LPM", b"LS\x40\0\0", b"X", b"", b"LZ"]
        {
            incoming.push(&frame(body));
        }
        let list = |bytes: &[u8]| Request::List(bytes.to_vec());
        let expected = [
            list(b"PAHB"),
            list(b"I\x01\x02G\x05\0\0\0"),
            Request::Wrong(WRONG_FRAME),
            Request::Wrong(WRONG_FRAME),
            Request::Wrong(WRONG_FRAME),
            Request::Wrong(WRONG_FRAME),
            list(b"Z"),
        ];
        assert_eq!(requests(&mut incoming, false), expected);
        assert!(incoming.is_between());
    }

    #[test]
    fn a_list_has_the_steps_of_a_second_at_most() {
        let travel = |steps: u32| [&b"G"[..], &steps.to_le_bytes()].concat();
        assert!(only_board_words(&travel(96_000)));
        assert!(!only_board_words(&travel(96_001)));
        assert!(!only_board_words(&[travel(48_000), travel(48_001)].concat()));
    }

    #[test]
    fn frames_in_pieces() {
        let mut incoming = Incoming::default();
        for byte in frame(b"LP") {
            assert_eq!(requests(&mut incoming, false), []);
            incoming.push(&[byte]);
        }
        assert_eq!(requests(&mut incoming, false), [Request::List(b"P".to_vec())]);
    }

    #[test]
    fn a_long_frame_is_passed_over() {
        let mut incoming = Incoming::default();
        incoming.push(&frame(&vec![b'L'; 20_000])[..10_000]);
        assert_eq!(requests(&mut incoming, false), [Request::Wrong(LONG_FRAME)]);
        incoming.push(&vec![b'L'; 10_004]);
        incoming.push(&frame(b"LB"));
        assert_eq!(requests(&mut incoming, false), [Request::List(b"B".to_vec())]);
    }

    #[test]
    fn an_end_within_a_frame_is_told() {
        let mut incoming = Incoming::default();
        incoming.push(&frame(b"LP")[..5]);
        assert_eq!(requests(&mut incoming, true), [Request::Wrong(CUT_FRAME)]);
        assert!(incoming.is_between());
    }
}
