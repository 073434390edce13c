//! One drive: its engine, what is known of it, and its simulated board if it has one.

mod board_lists;
mod milliseconds;

use crate::board::simulated::{Move, Simulated};
use cuminhamper::{Engine, Error, List, Motion, Refusal, Seen, Shown, ANSWER_ROOM};
use std::os::fd::{AsRawFd, RawFd};
use std::time::Duration;

/// An engine answers in microseconds. One that takes this long is lost.
const PATIENCE: Duration = Duration::from_secs(5);

/// Why an engine takes no further call.
pub struct Lost {
    pub name: u8,
    pub error: Error,
}

pub struct Drive {
    /// Its place among the drives of the command line.
    pub place: usize,
    /// The address of the command line, which names its files.
    pub name: u8,
    /// The drive's own address now.
    address: u8,
    engine: Engine,
    list: List,
    seen: Vec<Seen>,
    /// Whether a list was sent whose answer is not received yet.
    waiting: bool,
    shown: Shown,
    /// Whether a program may be under way. An idle drive gets no milliseconds, which would leave
    /// it as it is.
    busy: bool,
    position: i32,
    /// Direction and hertz of the last run that was ordered.
    backward: bool,
    ordered: u32,
    /// Steps that the drive took, and those that a board made and the drive did not take.
    steps: u64,
    overrun: u64,
    board: Option<Simulated>,
    /// What the board makes in the milliseconds that were sent.
    planned: Option<Move>,
    /// Milliseconds that are still to be given.
    owed: u64,
}

impl Drive {
    /// A drive with the memory of an image, or a fresh one of its name.
    pub fn new(
        place: usize,
        name: u8,
        mut engine: Engine,
        image: Option<&[u8]>,
    ) -> Result<Drive, Error> {
        engine.set_timeout(Some(PATIENCE))?;
        match image {
            Some(image) => engine.load(image)?,
            None => engine.fresh(name)?,
        }
        let address = address_of(&engine.image()?);
        let shown = engine.order()?;
        Ok(Drive {
            place,
            name,
            address,
            engine,
            list: List::new(),
            seen: Vec::new(),
            waiting: false,
            shown,
            busy: false,
            position: 0,
            backward: false,
            ordered: 0,
            overrun: 0,
            steps: 0,
            board: None,
            planned: None,
            owed: 0,
        })
    }

    pub fn simulate(&mut self) {
        self.board = Some(Simulated::default());
    }

    pub fn descriptor(&self) -> RawFd {
        self.engine.as_raw_fd()
    }

    pub fn address(&self) -> u8 {
        self.address
    }

    pub fn is_busy(&self) -> bool {
        self.busy
    }

    /// Whether a run is under way.
    pub fn is_moving(&self) -> bool {
        self.shown.order.motion != Motion::Stand
    }

    /// The steps taken and those not taken, since this was last asked.
    pub fn take_counts(&mut self) -> (u64, u64) {
        (std::mem::take(&mut self.steps), std::mem::take(&mut self.overrun))
    }

    pub fn position(&self) -> i32 {
        self.position
    }

    pub fn shown(&self) -> Shown {
        self.shown
    }

    /// The speed, signed by the direction. A board of its own does not tell it, so its order's is
    /// taken, and the last one while it slows down.
    pub fn hertz(&self) -> i32 {
        let hertz = match (&self.board, self.shown.order.motion) {
            (_, Motion::Stand) => 0,
            (Some(board), _) => board.hertz(),
            (None, _) => self.ordered,
        };
        // Orders are below 100 kHz.
        let hertz = hertz as i32;
        if self.backward {
            -hertz
        } else {
            hertz
        }
    }

    /// The image of the drive. It tells the drive's own address too, which a string may have
    /// changed.
    pub fn image(&mut self) -> Result<Vec<u8>, Lost> {
        let image = self.engine.image().map_err(|error| self.lost(error))?;
        self.address = address_of(&image);
        Ok(image)
    }

    fn lost(&self, error: Error) -> Lost {
        Lost { name: self.name, error }
    }

    /// Sends the list that was made.
    fn send(&mut self) -> Result<(), Lost> {
        self.engine.send(&self.list).map_err(|error| self.lost(error))?;
        self.waiting = true;
        Ok(())
    }

    /// Takes an answer that is still to come, where work was broken off.
    pub fn settle(&mut self) -> Result<(), Lost> {
        (self.owed, self.planned) = (0, None);
        if self.waiting {
            self.receive()
        } else {
            Ok(())
        }
    }

    /// What is seen of it, and follows each order.
    fn receive(&mut self) -> Result<(), Lost> {
        let mut seen = std::mem::take(&mut self.seen);
        let result = self.engine.receive_into(&mut seen);
        self.waiting = false;
        for word in &seen {
            match word {
                Seen::Order(shown) => self.follow(*shown),
                Seen::Travel(given) => self.travelled(*given),
                _ => {}
            }
        }
        self.seen = seen;
        result.map_err(|error| self.lost(error))
    }

    fn follow(&mut self, shown: Shown) {
        if let Some(board) = &mut self.board {
            board.follow(self.shown.order.motion, shown.order.motion);
        }
        if let Motion::Run(run) = shown.order.motion {
            (self.backward, self.ordered) = (run.backward, run.hertz);
        }
        self.shown = shown;
    }

    fn travelled(&mut self, given: u32) {
        let way = if self.backward { given.wrapping_neg() } else { given };
        self.position = self.position.wrapping_add(way as i32);
        self.steps += u64::from(given);
    }

    fn make(&mut self, words: impl FnOnce(&mut List) -> Result<(), Refusal>) -> Result<(), Lost> {
        self.list.clear();
        // These lists have a few words, so none is too long.
        words(&mut self.list).map_err(|refusal| self.lost(Error::Refused(refusal)))
    }
}

/// Strings.
impl Drive {
    /// Gives up the drive and its engine.
    pub fn abandon(self) {
        self.engine.abandon();
    }

    /// Gives the drive strings. What it answers is taken by `receive_answers`.
    pub fn send_strings(&mut self, strings: &[Vec<u8>]) -> Result<(), Lost> {
        self.make(|list| {
            for string in strings {
                list.string(string, ANSWER_ROOM)?;
            }
            // No run begins without a millisecond, so the order after the last string is enough.
            list.order().map(|_| ())
        })?;
        self.send()
    }

    /// What the drive answers to each string, nothing where it is silent.
    pub fn receive_answers(&mut self) -> Result<impl Iterator<Item = &[u8]>, Lost> {
        self.receive()?;
        Ok(self.seen.iter().filter_map(|word| match word {
            Seen::String(Ok(answer)) => Some(&answer[..]),
            Seen::String(Err(_)) => Some(&[][..]),
            _ => None,
        }))
    }

    /// A string may have started a program, or changed the position.
    pub fn mark_busy(&mut self) {
        self.busy = true;
    }

    /// The emergency stop, at the drive's own address.
    pub fn stop(&mut self) -> Result<(), Lost> {
        let string = format!("{:02}EE\r", self.address);
        self.send_strings(&[string.into_bytes()])?;
        self.receive()?;
        self.busy = true;
        Ok(())
    }
}

/// 02, Slip 1: an image begins with the address, a number below 48 and so one byte.
fn address_of(image: &[u8]) -> u8 {
    image.first().copied().unwrap_or(0)
}
