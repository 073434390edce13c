//! The line: bytes come from whoever is connected, strings go to the drives, answers go back.

mod assembler;
mod echo;
mod outgoing;
mod port;
mod pty;
mod tty;
mod unix;

use crate::options::{LineOption, Options};
use crate::sys::{PollFd, POLLIN, POLLOUT};
use assembler::Assembler;
use echo::Echo;
use outgoing::Outgoing;
use port::Port;
use std::fs::File;
use std::io::{self, ErrorKind, Read, Write};
use std::os::fd::AsRawFd;

pub use port::unix_listener;

/// Bytes are read in such portions.
const PORTION: usize = 4096;
/// So long a peer that has ended its side may take what is owed to it.
const OWED_MS: u64 = 2_000;

/// What the line has to tell since it was last asked.
#[derive(Default)]
pub struct Notices {
    pub dropped: u64,
    pub reconnects: u64,
    pub refused: u64,
    /// A sentence for the log.
    pub warning: Option<String>,
}

pub struct Line {
    port: Port,
    stream: Option<File>,
    /// Bytes that were read and are not looked at yet.
    input: Vec<u8>,
    looked: usize,
    assembler: Assembler,
    echo: Echo,
    outgoing: Outgoing,
    /// When the last byte came.
    heard: u64,
    /// Set where the peer has ended its side: until then it may take what is owed.
    ending: Option<u64>,
    /// Set where the peer takes nothing any more; what it has sent is still heard.
    write_failed: bool,
    gap: u64,
    answer_delay: u64,
    notices: Notices,
}

impl Line {
    pub fn open(options: &Options) -> Result<Line, String> {
        let (port, stream) = match &options.line {
            LineOption::Tty(path) => tty::open(path, options.baud, options.parity)?,
            LineOption::Unix(path) => unix::open(path)?,
            LineOption::Pty(link) => pty::open(link)?,
        };
        Ok(Line {
            port,
            stream,
            input: Vec::with_capacity(PORTION),
            looked: 0,
            assembler: Assembler::default(),
            echo: Echo::default(),
            outgoing: Outgoing::default(),
            heard: 0,
            ending: None,
            write_failed: false,
            gap: options.gap,
            answer_delay: options.answer_delay,
            notices: Notices::default(),
        })
    }

    /// The descriptors to poll: the stream's, then the port's.
    pub fn polls(&self, now: u64, listening: bool) -> [PollFd; 2] {
        let reading = listening && self.ending.is_none() && !self.has_input();
        let writing = self.outgoing.due(now).is_some();
        let events = if reading { POLLIN } else { 0 } | if writing { POLLOUT } else { 0 };
        // A stream that hung up is always ready, so it is left out where nothing is wanted of it.
        let stream = self.stream.as_ref().filter(|_| events != 0);
        let port = if listening { self.port.descriptor(self.ending.is_some()) } else { -1 };
        [
            PollFd { fd: stream.map_or(-1, AsRawFd::as_raw_fd), events, revents: 0 },
            PollFd { fd: port, events: POLLIN, revents: 0 },
        ]
    }

    /// Reads what there is, after what the port has to tell: a peer that came or left.
    pub fn serve(&mut self, polls: &[PollFd], now: u64) {
        if polls[1].revents != 0 || polls[0].revents != 0 {
            self.serve_port(polls[1].revents != 0);
        }
        if polls[0].revents & !POLLOUT != 0 && !self.has_input() && self.ending.is_none() {
            self.read(now);
        }
    }

    fn serve_port(&mut self, ready: bool) {
        match &mut self.port {
            Port::Unix(port) if ready => match &self.stream {
                None => self.stream = port.accept(),
                Some(stream) if !unix::has_left(stream) => {
                    self.notices.refused += port.refuse();
                }
                // The peer has left, which is read next; the new one waits until then.
                Some(_) => {}
            },
            Port::Pty(port) => {
                if port.peer_left() {
                    self.notices.dropped += self.outgoing.clear();
                    port.drop_unread();
                }
            }
            Port::Unix(_) | Port::Tty(_) => {}
        }
    }

    fn read(&mut self, now: u64) {
        let Some(stream) = &mut self.stream else { return };
        self.input.resize(PORTION, 0);
        let result = stream.read(&mut self.input);
        self.looked = 0;
        self.input.truncate(*result.as_ref().unwrap_or(&0));
        match result {
            Ok(0) => self.ended(now),
            Ok(_) => self.heard = now,
            Err(error) if transient(&error) => {}
            Err(error) => self.hang_up(now, &error.to_string()),
        }
    }

    /// The other side has ended what it sends.
    fn ended(&mut self, now: u64) {
        match self.port {
            Port::Unix(_) => self.ending = Some(now + OWED_MS),
            Port::Tty(_) | Port::Pty(_) => self.hang_up(now, "it has hung up"),
        }
    }

    fn has_input(&self) -> bool {
        self.looked < self.input.len()
    }

    /// Whether strings may be there without anything being read.
    pub fn at_work(&self) -> bool {
        self.has_input()
    }

    /// The next string of a master, if one is there whole.
    pub fn next_string(&mut self, now: u64) -> Option<Vec<u8>> {
        while self.looked < self.input.len() {
            let byte = self.input[self.looked];
            self.looked += 1;
            let Some(string) = self.assembler.push(byte) else { continue };
            if !self.echo.is_echo(now, &string) {
                return Some(string);
            }
        }
        self.notices.dropped += self.assembler.take_over();
        None
    }

    /// Another string is to be answered: what was answered before and not taken is dropped, since
    /// nobody waits for it any more.
    pub fn drop_untaken(&mut self, now: u64) {
        self.notices.dropped += self.outgoing.drop_untaken(now);
    }

    /// An answer to the last string; false where it could not be queued.
    pub fn answer(&mut self, now: u64, answer: &[u8]) -> bool {
        if self.stream.is_none() || self.write_failed {
            self.notices.dropped += answer.len() as u64;
            return false;
        }
        let queued = self.outgoing.push(now + self.answer_delay, answer);
        match queued {
            true => self.echo.sent(now + self.answer_delay, answer),
            false => self.notices.dropped += answer.len() as u64,
        }
        queued
    }

    /// Writes what is due, as far as it is taken.
    pub fn write(&mut self, now: u64) {
        while let (Some(bytes), Some(stream)) = (self.outgoing.due(now), &mut self.stream) {
            match stream.write(bytes) {
                Ok(count) => self.outgoing.take(count),
                Err(error) if transient(&error) => return,
                Err(error) => return self.take_nothing(now, &error.to_string()),
            }
        }
    }

    /// Nothing can be written. A peer of a socket has left then, which is read after all that it
    /// has sent.
    fn take_nothing(&mut self, now: u64, why: &str) {
        match self.port {
            Port::Unix(_) => {
                self.write_failed = true;
                self.notices.dropped += self.outgoing.clear();
            }
            Port::Tty(_) | Port::Pty(_) => self.hang_up(now, why),
        }
    }

    /// What the time brings: a gap within a string, the end of a peer, a device that may be back.
    pub fn pass(&mut self, now: u64) {
        if self.has_input() {
            return;
        }
        if self.assembler.begun() && now > self.heard + self.gap {
            self.notices.dropped += self.assembler.drop_half();
        }
        if self.ending.is_some_and(|until| self.outgoing.is_empty() || now > until) {
            self.hang_up(now, "");
        }
        match &mut self.port {
            Port::Pty(port) => {
                if port.is_left(self.stream.as_ref()) {
                    self.notices.dropped += self.assembler.drop_half() + self.outgoing.clear();
                    self.echo.clear();
                    port.drop_unread();
                }
            }
            Port::Tty(port) if self.stream.is_none() => {
                self.stream = port.reopen(now);
                self.notices.reconnects += u64::from(self.stream.is_some());
            }
            Port::Tty(_) | Port::Unix(_) => {}
        }
    }

    /// The peer is gone: nothing of its strings and answers is kept. What it has sent whole was
    /// read before.
    fn hang_up(&mut self, now: u64, why: &str) {
        self.notices.dropped += self.assembler.drop_half() + self.outgoing.clear();
        self.echo.clear();
        (self.ending, self.write_failed) = (None, false);
        if let Port::Pty(_) = self.port {
            self.notices.warning = Some(format!("the line has trouble: {why}"));
            return;
        }
        self.stream = None;
        if let Port::Tty(port) = &mut self.port {
            self.input.clear();
            port.lose(now);
            self.notices.warning = Some(format!(
                "the line {} is lost, {why}; it is opened again each second",
                port.name()
            ));
        }
    }

    pub fn is_quiet(&self) -> bool {
        self.outgoing.is_empty() || self.stream.is_none()
    }

    pub fn take_notices(&mut self) -> Notices {
        std::mem::take(&mut self.notices)
    }

    /// Takes the socket file or the link away.
    pub fn close(&mut self) {
        self.port.close();
    }
}

fn transient(error: &io::Error) -> bool {
    matches!(error.kind(), ErrorKind::WouldBlock | ErrorKind::Interrupted)
}
