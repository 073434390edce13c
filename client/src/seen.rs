//! What is seen of a list, read strictly: every byte is accounted for, or the answer is none.

use crate::list::ANSWER_ROOM;
use crate::shown::{Motion, Order, Outputs, Run, Shown};
use crate::{Error, Refusal};
use std::fmt;
use std::ops::Deref;

/// What is seen of one word. The refusals are those that the call would get alone.
#[derive(Clone, Copy, Debug, PartialEq, Eq)]
pub enum Seen {
    /// The answer, empty where the drive is silent.
    String(Result<Answer, Refusal>),
    Inputs(Result<(), Refusal>),
    Millisecond(Result<(), Refusal>),
    Step(Result<(), Refusal>),
    AtSpeed(Result<(), Refusal>),
    Halted(Result<(), Refusal>),
    Wait(Result<Waited, Refusal>),
    Order(Shown),
    /// The steps that were given.
    Travel(u32),
}

impl Seen {
    /// The refusal of this word, if it was refused.
    pub fn refusal(&self) -> Option<Refusal> {
        match self {
            Seen::String(answer) => answer.err(),
            Seen::Inputs(done)
            | Seen::Millisecond(done)
            | Seen::Step(done)
            | Seen::AtSpeed(done)
            | Seen::Halted(done) => done.err(),
            Seen::Wait(waited) => waited.err(),
            Seen::Order(_) | Seen::Travel(_) => None,
        }
    }
}

/// The answer to a string, byte 13 included; used as a slice.
#[derive(Clone, Copy)]
pub struct Answer {
    bytes: [u8; ANSWER_ROOM as usize],
    length: u8,
}

impl Deref for Answer {
    type Target = [u8];

    fn deref(&self) -> &[u8] {
        &self.bytes[..usize::from(self.length)]
    }
}

impl PartialEq for Answer {
    fn eq(&self, other: &Answer) -> bool {
        **self == **other
    }
}

impl Eq for Answer {}

impl fmt::Debug for Answer {
    fn fmt(&self, f: &mut fmt::Formatter) -> fmt::Result {
        write!(f, "\"{}\"", self.escape_ascii())
    }
}

/// How a wait ended, and the milliseconds that it gave.
#[derive(Clone, Copy, Debug, PartialEq, Eq)]
pub struct Waited {
    pub end: End,
    pub given: u32,
}

#[derive(Clone, Copy, Debug, PartialEq, Eq)]
pub enum End {
    Idle,
    Moving,
    /// The budget is spent.
    Spent,
}

/// A word's own refusal, or what it hands back; the outer error is that of a bad answer.
pub(crate) type Read<T> = Result<Result<T, Refusal>, Error>;

/// Reads one word's bytes after another.
pub(crate) struct Reader<'a> {
    rest: &'a [u8],
}

impl<'a> Reader<'a> {
    pub(crate) fn new(rest: &'a [u8]) -> Reader<'a> {
        Reader { rest }
    }

    /// Nothing may be left.
    pub(crate) fn end(&self) -> Result<(), Error> {
        if self.rest.is_empty() {
            return Ok(());
        }
        Err(Error::Protocol("the answer is longer than its request calls for"))
    }

    pub(crate) fn word(&mut self, letter: u8) -> Result<Seen, Error> {
        Ok(match letter {
            b'S' => Seen::String(self.string()?),
            b'I' => Seen::Inputs(self.inputs()?),
            b'M' => Seen::Millisecond(self.millisecond()?),
            b'P' => Seen::Step(self.step()?),
            b'A' => Seen::AtSpeed(self.report()?),
            b'H' => Seen::Halted(self.report()?),
            b'W' => Seen::Wait(self.wait()?),
            b'B' => Seen::Order(self.order()?),
            b'G' => Seen::Travel(self.travel()?),
            _ => return Err(Error::Protocol("there is no word of this letter")),
        })
    }

    pub(crate) fn string(&mut self) -> Read<Answer> {
        let done = self.done(Some(Refusal::AnswerBuffer))?;
        let length = self.byte()?;
        if length > ANSWER_ROOM || (done.is_err() && length > 0) {
            return Err(Error::Protocol("the answer to a string has a length that cannot be"));
        }
        let mut answer = Answer { bytes: [0; ANSWER_ROOM as usize], length };
        let bytes = self.take(usize::from(length))?;
        answer.bytes[..bytes.len()].copy_from_slice(bytes);
        Ok(done.map(|()| answer))
    }

    pub(crate) fn inputs(&mut self) -> Read<()> {
        self.done(Some(Refusal::InputsWord))
    }

    pub(crate) fn millisecond(&mut self) -> Read<()> {
        self.done(None)
    }

    pub(crate) fn step(&mut self) -> Read<()> {
        self.done(Some(Refusal::NoRun))
    }

    /// At-speed or halted.
    pub(crate) fn report(&mut self) -> Read<()> {
        self.done(Some(Refusal::Report))
    }

    pub(crate) fn wait(&mut self) -> Read<Waited> {
        let done = self.done(Some(Refusal::Budget))?;
        let end = self.byte()?;
        let given = self.number()?;
        let end = match (done, end) {
            (Err(refusal), 0) if given == 0 => return Ok(Err(refusal)),
            (Ok(()), 1) => End::Idle,
            (Ok(()), 2) => End::Moving,
            (Ok(()), 3) => End::Spent,
            _ => return Err(Error::Protocol("the end of a wait is none of those there are")),
        };
        Ok(Ok(Waited { end, given }))
    }

    pub(crate) fn order(&mut self) -> Result<Shown, Error> {
        self.never_refused()?;
        let kind = self.byte()?;
        let current = self.byte()?;
        let signals = self.byte()?;
        let ramp = self.byte()?;
        let hertz = self.number()?;
        let rest = self.number()? as i32;
        let run = Run { backward: signals & 4 != 0, hertz, ramp, rest };
        let motion = match kind {
            2 => Motion::Run(run),
            0 | 1 if run != (Run { backward: false, hertz: 0, ramp: 0, rest: 0 }) => {
                return Err(Error::Protocol("an order without a run has parts of a run"));
            }
            0 => Motion::Stand,
            1 => Motion::Slow,
            _ => return Err(Error::Protocol("the kind of an order is none of those there are")),
        };
        let outputs = Outputs::of_bits(self.number()?)
            .filter(|_| current <= 3 && signals < 8)
            .ok_or(Error::Protocol("an order has a current, signals or outputs out of range"))?;
        let (powered, fc) = (signals & 1 != 0, signals & 2 != 0);
        Ok(Shown { order: Order { motion, current, powered, fc }, outputs })
    }

    pub(crate) fn travel(&mut self) -> Result<u32, Error> {
        self.never_refused()?;
        self.number()
    }

    fn never_refused(&mut self) -> Result<(), Error> {
        // `done` without a refusal of its own gives none.
        self.done(None).map(|_| ())
    }

    /// 0, or the one refusal that the word has.
    fn done(&mut self, own: Option<Refusal>) -> Read<()> {
        match (self.byte()?, own) {
            (0, _) => Ok(Ok(())),
            (number, Some(refusal)) if number == refusal.number() => Ok(Err(refusal)),
            _ => Err(Error::Protocol("a word was refused by a number that is not its own")),
        }
    }

    fn byte(&mut self) -> Result<u8, Error> {
        Ok(self.take(1)?[0])
    }

    fn number(&mut self) -> Result<u32, Error> {
        let bytes = self.take(4)?;
        Ok(u32::from_le_bytes([bytes[0], bytes[1], bytes[2], bytes[3]]))
    }

    fn take(&mut self, count: usize) -> Result<&'a [u8], Error> {
        if count > self.rest.len() {
            return Err(Error::Protocol("the answer is shorter than its request calls for"));
        }
        let (taken, rest) = self.rest.split_at(count);
        self.rest = rest;
        Ok(taken)
    }
}
