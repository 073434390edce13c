//! An engine, and its calls.

use crate::channel::Channel;
use crate::list::ANSWER_ROOM;
use crate::seen::{Read, Reader};
use crate::server::Server;
use crate::{Error, List, Refusal, Seen, Shown, Waited};
use std::ffi::OsStr;
use std::os::fd::{AsFd, AsRawFd, BorrowedFd, RawFd};
use std::os::unix::net::UnixStream;
use std::time::Duration;

/// The version of the protocol that this crate speaks.
pub const VERSION: u8 = 1;
/// What has not told its version after this time is no engine.
const GREETING: Duration = Duration::from_secs(10);

/// One drive, at first a fresh one of address 00, in a thread or a process of its own. Dropping
/// the engine ends it.
///
/// The descriptor is for `poll` alone: it is readable when an answer has come, and hung up when the
/// engine has ended.
pub struct Engine {
    channel: Channel,
    server: Server,
    /// The list of a single call, and the letters of the list that was sent.
    single: List,
    sent: Vec<u8>,
}

impl Engine {
    /// The proved engine that is linked into the program, in a thread.
    #[cfg(feature = "linked")]
    pub fn start() -> Result<Engine, Error> {
        let (server, stream) = Server::start()?;
        Engine::greeted(server, stream)
    }

    /// A program that speaks the protocol on its standard input and output, as a process.
    pub fn spawn(
        program: impl AsRef<OsStr>,
        arguments: impl IntoIterator<Item = impl AsRef<OsStr>>,
    ) -> Result<Engine, Error> {
        let (server, stream) = Server::spawn(program.as_ref(), arguments)?;
        Engine::greeted(server, stream)
    }

    /// An engine that serves the other end of a socket already.
    pub fn connected(stream: UnixStream) -> Result<Engine, Error> {
        Engine::greeted(Server::Peer, stream)
    }

    /// Asks for the version, so that what is no engine is found out here. The time for it is that
    /// of the socket, if it has one.
    fn greeted(server: Server, stream: UnixStream) -> Result<Engine, Error> {
        let channel = Channel::new(stream);
        let mut engine = Engine { channel, server, single: List::new(), sent: Vec::new() };
        let timeout = engine.channel.stream().read_timeout()?;
        engine.set_timeout(timeout.or(Some(GREETING)))?;
        if engine.version()? != VERSION {
            return Err(Error::Protocol(
                "the engine speaks another version of the protocol than 1",
            ));
        }
        engine.set_timeout(timeout)?;
        Ok(engine)
    }

    /// How long a request and an answer may each take, without end unless set. An engine that takes
    /// longer is lost.
    pub fn set_timeout(&mut self, timeout: Option<Duration>) -> Result<(), Error> {
        self.channel.stream().set_read_timeout(timeout)?;
        self.channel.stream().set_write_timeout(timeout)?;
        Ok(())
    }

    /// The version of the protocol that the engine speaks.
    pub fn version(&mut self) -> Result<u8, Error> {
        self.channel.send(b"V", &[])?;
        self.channel.receive(&[], |rest| match *rest {
            [version] => Ok(version),
            _ => Err(Error::Protocol("the answer with the version has not one byte")),
        })
    }

    /// The drive is now a fresh one of this address, 0 to 47.
    pub fn fresh(&mut self, address: u8) -> Result<(), Error> {
        self.channel.send(b"F", &[address])?;
        self.channel.receive(&[Refusal::Address], |rest| Reader::new(rest).end())
    }

    /// The drive is now the one that the image gives.
    pub fn load(&mut self, image: &[u8]) -> Result<(), Error> {
        self.channel.send(b"R", image)?;
        self.channel.receive(&[Refusal::Image], |rest| Reader::new(rest).end())
    }

    /// The image of the drive: presets and cells 100 to 227.
    pub fn image(&mut self) -> Result<Vec<u8>, Error> {
        self.channel.send(b"X", &[])?;
        self.channel.receive(&[Refusal::Unsound], |rest| Ok(rest.to_vec()))
    }

    /// A string with its byte 13. The answer has its own, and is empty where the drive is silent.
    pub fn string(&mut self, text: &[u8]) -> Result<Vec<u8>, Error> {
        let answer = self.call(|list| list.string(text, ANSWER_ROOM), |reader| reader.string())?;
        Ok(answer.to_vec())
    }

    /// An inputs word: I0, I1, I2, PX, S0 to S3, ST, ES, EE from bit 0.
    pub fn inputs(&mut self, word: u16) -> Result<(), Error> {
        self.call(|list| list.inputs(word), |reader| reader.inputs())
    }

    /// One millisecond passes.
    pub fn millisecond(&mut self) -> Result<(), Error> {
        self.call(List::millisecond, |reader| reader.millisecond())
    }

    /// From the board: a step was made.
    pub fn step(&mut self) -> Result<(), Error> {
        self.call(List::step, |reader| reader.step())
    }

    /// From the board: the ramp is done.
    pub fn at_speed(&mut self) -> Result<(), Error> {
        self.call(List::at_speed, |reader| reader.report())
    }

    /// From the board: the motor stands after slowing.
    pub fn halted(&mut self) -> Result<(), Error> {
        self.call(List::halted, |reader| reader.report())
    }

    /// Milliseconds until the drive is idle, moving or the budget is spent.
    pub fn wait(&mut self, budget: u32) -> Result<Waited, Error> {
        self.call(|list| list.wait(budget), |reader| reader.wait())
    }

    /// The order to the board and the outputs.
    pub fn order(&mut self) -> Result<Shown, Error> {
        self.call(List::order, |reader| reader.order().map(Ok))
    }

    /// Steps: until n are given, the run is over, the present cell is another or an output has
    /// changed. Tells how many were given.
    pub fn travel(&mut self, n: u32) -> Result<u32, Error> {
        self.call(|list| list.travel(n), |reader| reader.travel().map(Ok))
    }

    /// Carries a list out: what is seen of each word, in order. A list that is refused whole
    /// changes nothing.
    pub fn perform(&mut self, list: &List) -> Result<Vec<Seen>, Error> {
        self.send(list)?;
        self.receive()
    }

    /// As `perform`, into a lent vector, which is cleared first; it allocates nothing once the
    /// vector is long enough.
    pub fn perform_into(&mut self, list: &List, seen: &mut Vec<Seen>) -> Result<(), Error> {
        self.send(list)?;
        self.receive_into(seen)
    }

    /// Sends a list and does not wait, so that one loop can keep many engines at work. One request
    /// is under way at a time: receive the answer before the next.
    pub fn send(&mut self, list: &List) -> Result<(), Error> {
        self.channel.send(b"L", list.bytes())?;
        self.sent.clear();
        self.sent.extend_from_slice(list.letters());
        Ok(())
    }

    /// What is seen of the list that was sent; waits until it has come.
    pub fn receive(&mut self) -> Result<Vec<Seen>, Error> {
        let mut seen = Vec::with_capacity(self.sent.len());
        self.receive_into(&mut seen)?;
        Ok(seen)
    }

    /// As `receive`, into a lent vector, which is cleared first.
    pub fn receive_into(&mut self, seen: &mut Vec<Seen>) -> Result<(), Error> {
        seen.clear();
        self.channel.receive(LIST_REFUSALS, |rest| {
            let mut reader = Reader::new(rest);
            for letter in &self.sent {
                seen.push(reader.word(*letter)?);
            }
            reader.end()
        })
    }

    /// Sends a request as it is, kind first, for hosts that hand frames on. Its answer is received
    /// by `receive_frame`.
    pub fn send_frame(&mut self, frame: &[u8]) -> Result<(), Error> {
        self.sent.clear();
        self.channel.send(frame, &[])
    }

    /// The answer as it is, status first, into a lent vector, which is cleared first.
    pub fn receive_frame(&mut self, answer: &mut Vec<u8>) -> Result<(), Error> {
        answer.clear();
        answer.extend_from_slice(self.channel.receive_frame()?);
        Ok(())
    }

    /// Gives up an engine that may not answer any more. It is not waited for as dropping waits: a
    /// process is killed, a thread is left to itself.
    pub fn abandon(mut self) {
        self.server.abandon(self.channel.stream());
    }

    /// A list of one word, and its own refusal.
    fn call<T>(
        &mut self,
        word: impl FnOnce(&mut List) -> Result<&mut List, Refusal>,
        read: impl FnOnce(&mut Reader) -> Read<T>,
    ) -> Result<T, Error> {
        self.single.clear();
        word(&mut self.single)?;
        self.channel.send(b"L", self.single.bytes())?;
        let done = self.channel.receive(LIST_REFUSALS, |rest| {
            let mut reader = Reader::new(rest);
            let done = read(&mut reader)?;
            reader.end()?;
            Ok(done)
        })?;
        Ok(done?)
    }
}

/// The refusals of a list as a whole.
const LIST_REFUSALS: &[Refusal] =
    &[Refusal::Unsound, Refusal::Letter, Refusal::CutWord, Refusal::Room];

impl Drop for Engine {
    fn drop(&mut self) {
        self.server.end(self.channel.stream());
    }
}

impl AsFd for Engine {
    fn as_fd(&self) -> BorrowedFd<'_> {
        self.channel.stream().as_fd()
    }
}

impl AsRawFd for Engine {
    fn as_raw_fd(&self) -> RawFd {
        self.channel.stream().as_raw_fd()
    }
}
