//! The loop: one thread that waits for the clock, the line, the boards, signals and the engines.

mod ending;
mod hearing;
mod records;
mod timing;

use crate::board::socket::BoardSocket;
use crate::clock::Clock;
use crate::drive::{Drive, Lost};
use crate::files::Files;
use crate::keeper::Keeper;
use crate::line::Line;
use crate::log::Log;
use crate::metrics::Metrics;
use crate::options::{BoardOption, Options};
use crate::signals::Signals;
use crate::start;
use crate::store::Store;
use crate::sys::{self, PollFd, POLLIN};
use crate::trace::Trace;
use cuminhamper::Error;
use std::fs::File;
use std::io::{self, ErrorKind};
use std::sync::Arc;

const FAILED: i32 = 1;

/// The places of the descriptors in the poll; boards and engines follow.
const CLOCK: usize = 0;
const SIGNALS: usize = 1;
const LINE: usize = 2;
const BOARDS: usize = 4;

pub struct Gateway {
    drives: Vec<Drive>,
    /// The image of each drive as it was last handed to the keeper, or found at the start.
    images: Vec<Vec<u8>>,
    /// Empty where boards are simulated.
    boards: Vec<BoardSocket>,
    line: Line,
    clock: Clock,
    signals: Signals,
    keeper: Keeper,
    files: Files,
    trace: Option<Trace>,
    metrics: Metrics,
    log: Arc<Log>,
    polls: Vec<PollFd>,
    share: hearing::Share,
    catch_up: u64,
    /// Milliseconds of the clock since the start, those that were lost too.
    time: u64,
    /// When the signal to end came, or an engine was lost.
    ending: Option<u64>,
    status: i32,
    metrics_due: u64,
    trace_due: u64,
    _lock: File,
}

/// What ends the loop.
enum End {
    Asked,
    Lost(Lost),
    Trouble(io::Error),
}

impl From<Lost> for End {
    fn from(lost: Lost) -> End {
        End::Lost(lost)
    }
}

impl Gateway {
    pub fn open(options: &Options, signals: Signals, log: Arc<Log>) -> Result<Gateway, String> {
        let lock = start::lock(&options.state)?;
        let mut drives = start::drives(options, &log)?;
        let boards = boards(options, &mut drives)?;
        let images = drives.iter_mut().map(Drive::image).collect::<Result<Vec<_>, Lost>>();
        let images = images.map_err(|lost| sentence(&lost))?;
        let stores = options.addresses.iter().map(|name| Store::new(&options.state, *name));
        let keeper = Keeper::start(stores.collect(), log.clone()).map_err(no_thread)?;
        let files =
            Files::start(options.trace.as_deref(), options.metrics.as_deref(), log.clone())?;
        let trace = options.trace.as_ref().map(|_| Trace::new(drives.len()));
        let line = Line::open(options)?;
        let clock = Clock::new().map_err(|error| format!("there is no clock: {error}"))?;
        Ok(Gateway {
            drives,
            images,
            boards,
            line,
            clock,
            signals,
            keeper,
            files,
            trace,
            metrics: Metrics::default(),
            log,
            polls: Vec::new(),
            share: hearing::Share::default(),
            catch_up: options.catch_up,
            time: 0,
            ending: None,
            status: 0,
            metrics_due: 0,
            trace_due: 0,
            _lock: lock,
        })
    }

    /// Runs until a signal asks for the end or an engine is lost; the status.
    pub fn run(mut self) -> i32 {
        let count = self.drives.len();
        self.log
            .info(format!("ready with {count} {}", if count == 1 { "drive" } else { "drives" }));
        self.see_all();
        loop {
            match self.turn() {
                Ok(()) => {}
                Err(End::Asked) => break,
                Err(End::Lost(lost)) => self.lose(&lost),
                Err(End::Trouble(error)) => {
                    self.log.error(format!("the system takes no more: {error}; the gateway ends"));
                    self.status = FAILED;
                    break;
                }
            }
        }
        let status = self.status;
        self.finish();
        status
    }

    /// Waits for something to happen, and does what is to be done.
    fn turn(&mut self) -> Result<(), End> {
        let now = self.clock.now();
        self.gather_polls(now);
        self.clock.set_idle(self.is_idle()).map_err(End::Trouble)?;
        let timeout = self.is_at_work().then_some(0);
        sys::poll(&mut self.polls, timeout).map_err(End::Trouble)?;
        let now = self.clock.now();
        self.share.begin(now);
        // What comes while all is idle may start a program, to which the time before it is nothing.
        if self.polls[CLOCK].revents != 0 || self.clock.is_idle() {
            self.pass_time()?;
        }
        if self.polls[SIGNALS].revents != 0 {
            self.take_signals(now)?;
        }
        self.watch_engines()?;
        self.serve_boards()?;
        self.serve_line(now)?;
        self.write_records(now);
        self.judge_end(now)
    }

    /// Whether nothing is under way that needs each millisecond.
    fn is_idle(&self) -> bool {
        self.is_listening() && self.line.is_quiet() && !self.drives.iter().any(Drive::is_busy)
    }

    /// Whether strings are taken now.
    fn is_listening(&self) -> bool {
        self.ending.is_none() && self.share.is_left()
    }

    /// Whether something is to be done without waiting.
    fn is_at_work(&self) -> bool {
        let strings = self.line.at_work() && self.is_listening();
        strings || self.boards.iter().any(BoardSocket::at_work)
    }

    fn gather_polls(&mut self, now: u64) {
        let readable = |fd| PollFd { fd, events: POLLIN, revents: 0 };
        self.polls.clear();
        self.polls.push(readable(self.clock.descriptor()));
        self.polls.push(readable(self.signals.descriptor()));
        self.polls.extend(self.line.polls(now, self.is_listening()));
        self.polls.extend(self.boards.iter().flat_map(BoardSocket::polls));
        self.polls.extend(self.drives.iter().map(|drive| readable(drive.descriptor())));
    }

    /// No engine says anything unasked; one that does, or hangs up, is lost.
    fn watch_engines(&mut self) -> Result<(), Lost> {
        let first = BOARDS + 2 * self.boards.len();
        for (poll, drive) in self.polls[first..].iter().zip(&self.drives) {
            if poll.revents != 0 {
                let error = Error::Io(io::Error::new(ErrorKind::UnexpectedEof, "it has ended"));
                return Err(Lost { name: drive.name, error });
            }
        }
        Ok(())
    }
}

/// A simulated board for each drive, or a socket.
fn boards(options: &Options, drives: &mut [Drive]) -> Result<Vec<BoardSocket>, String> {
    let mut sockets = Vec::new();
    for drive in drives {
        match &options.board {
            BoardOption::Simulated => drive.simulate(),
            BoardOption::Unix(directory) => sockets.push(BoardSocket::open(directory, drive.name)?),
        }
    }
    Ok(sockets)
}

fn sentence(lost: &Lost) -> String {
    format!("the engine of drive {:02} is lost: {}", lost.name, lost.error)
}

fn no_thread(error: io::Error) -> String {
    format!("a thread cannot be started: {error}")
}
