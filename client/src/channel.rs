//! Frames over a socket: one request, then its answer.

use crate::list::{LIST_BYTES, SEEN_BYTES};
use crate::{Error, Refusal};
use std::io::{self, ErrorKind, Read, Write};
use std::os::unix::net::UnixStream;

/// The length that stands before each frame.
const HEAD: usize = 4;

pub(crate) struct Channel {
    stream: UnixStream,
    /// Whether the answer to the last request has not been received yet.
    owed: bool,
    /// Set by trouble after which request and answer may no longer belong together.
    broken: bool,
    /// The request, and the answer, with their lengths; kept so that calls need not allocate.
    request: Vec<u8>,
    answer: Vec<u8>,
}

impl Channel {
    pub(crate) fn new(stream: UnixStream) -> Channel {
        let (request, answer) = (Vec::new(), vec![0; HEAD + 1 + SEEN_BYTES]);
        Channel { stream, owed: false, broken: false, request, answer }
    }

    pub(crate) fn stream(&self) -> &UnixStream {
        &self.stream
    }

    /// Sends a frame of a kind and the rest. It waits for no answer: the engine reads a request
    /// to its end before it answers, and one is under way at a time.
    pub(crate) fn send(&mut self, kind: &[u8], rest: &[u8]) -> Result<(), Error> {
        self.usable()?;
        if self.owed {
            return Err(Error::Protocol(
                "the answer to the last request was not received yet: receive it first",
            ));
        }
        let length = kind.len() + rest.len();
        if length > 1 + LIST_BYTES {
            return Err(Error::Refused(Refusal::LongFrame));
        }
        self.request.clear();
        self.request.extend_from_slice(&(length as u32).to_le_bytes());
        self.request.extend_from_slice(kind);
        self.request.extend_from_slice(rest);
        if let Err(error) = self.stream.write_all(&self.request) {
            self.broken = true;
            return Err(Error::Io(ended_by(error)));
        }
        self.owed = true;
        Ok(())
    }

    /// The answer to the request that was sent: its status judged by the refusals that the request
    /// may get, and the rest read.
    pub(crate) fn receive<T>(
        &mut self,
        refusals: &[Refusal],
        read: impl FnOnce(&[u8]) -> Result<T, Error>,
    ) -> Result<T, Error> {
        let frame = self.receive_frame()?;
        let result = judge(frame, refusals).and_then(|()| read(&frame[1..]));
        // After an answer that is none, what comes next cannot be trusted.
        self.broken = matches!(result, Err(Error::Protocol(_)));
        result
    }

    /// The answer to the request that was sent, status first.
    pub(crate) fn receive_frame(&mut self) -> Result<&[u8], Error> {
        self.usable()?;
        if !self.owed {
            return Err(Error::Protocol("no request was sent whose answer could be received"));
        }
        self.broken = true;
        let length = self.read_frame()?;
        self.broken = false;
        self.owed = false;
        Ok(&self.answer[HEAD..HEAD + length])
    }

    fn usable(&self) -> Result<(), Error> {
        if !self.broken {
            return Ok(());
        }
        Err(Error::Protocol("an earlier call failed and this engine is lost: start another"))
    }

    /// Reads a frame into the buffer and tells its length. Most come in one read.
    fn read_frame(&mut self) -> Result<usize, Error> {
        let mut there = 0;
        loop {
            there += self.read_some(there)?;
            if there < HEAD {
                continue;
            }
            let head = [self.answer[0], self.answer[1], self.answer[2], self.answer[3]];
            let length = u32::from_le_bytes(head) as usize;
            if length == 0 || length > 1 + SEEN_BYTES {
                return Err(Error::Protocol("an answer is empty or longer than answers are"));
            }
            if there > HEAD + length {
                return Err(Error::Protocol("bytes came after the answer that nobody asked for"));
            }
            if there == HEAD + length {
                return Ok(length);
            }
        }
    }

    fn read_some(&mut self, there: usize) -> Result<usize, Error> {
        loop {
            match self.stream.read(&mut self.answer[there..]) {
                Ok(0) => return Err(Error::Io(ended())),
                Ok(count) => return Ok(count),
                Err(error) if error.kind() == ErrorKind::Interrupted => {}
                Err(error) => return Err(Error::Io(ended_by(error))),
            }
        }
    }
}

/// Status 0, or one of these refusals with nothing after it.
fn judge(frame: &[u8], refusals: &[Refusal]) -> Result<(), Error> {
    if frame[0] == 0 {
        return Ok(());
    }
    match refusals.iter().find(|refusal| refusal.number() == frame[0]) {
        Some(refusal) if frame.len() == 1 => Err(Error::Refused(*refusal)),
        Some(_) => Err(Error::Protocol("a refusal has bytes after its number")),
        None => Err(Error::Protocol("the status of an answer is none that its request can get")),
    }
}

/// A connection that was reset is an engine that has ended.
fn ended_by(error: io::Error) -> io::Error {
    match error.kind() {
        ErrorKind::BrokenPipe | ErrorKind::ConnectionReset => ended(),
        ErrorKind::WouldBlock => {
            io::Error::new(ErrorKind::TimedOut, "it did not answer within the time that was set")
        }
        _ => error,
    }
}

fn ended() -> io::Error {
    io::Error::new(ErrorKind::UnexpectedEof, "it has ended")
}
