//! A board and a clock that carry a program through, uninterrupted, and count what they see of it.

use reference::board::Order;
use reference::generate::random::Random;
use reference::memory::{Drive, Fault, Phase};

const EE: u32 = 1 << 10;

/// Strings that a busy drive is silent to, or that stop no indexed run.
const STRINGS: [&str; 6] = ["ES", "QA", "EE,", "PS,100", "SA,5", "WN,100,62,100,000"];

pub struct Board<'a> {
    pub drive: Drive,
    random: &'a mut Random,
    /// Steps by the direction of the order before each.
    pub net: i64,
    /// Milliseconds given in a delay.
    pub delay: u32,
    /// Milliseconds given outside a run or delay: the cells that were taken.
    pub taken: usize,
}

impl<'a> Board<'a> {
    /// Starts a program by PS.
    pub fn start(mut drive: Drive, cell: u8, random: &'a mut Random) -> Board<'a> {
        let mut buffer = [0; 64];
        let string = format!("{:02}PS,{cell}\r", drive.presets.address);
        let length = drive.string(string.as_bytes(), &mut buffer);
        assert_eq!((length, buffer[2]), (Ok(Some(4)), b'Y'), "{string}");
        Board { drive, random, net: 0, delay: 0, taken: 0 }
    }

    /// Gives events until the drive is idle, at most so many. An error would make it idle too.
    pub fn run(&mut self, events: usize) {
        for _ in 0..events {
            if self.drive.idle() {
                break;
            }
            self.event();
            assert_eq!(self.drive.fault, Fault::NONE);
        }
    }

    /// Mostly what the program waits for: a step in a run, else a millisecond.
    fn event(&mut self) {
        let moving = self.drive.moving();
        match self.random.below(20) {
            0 => self.at_speed(),
            1 => self.halted(),
            2 => self.wait(),
            3 => self.inputs(),
            4 => self.string(),
            5 if moving => self.millisecond(),
            5 => self.step(),
            _ if moving => self.step(),
            _ => self.millisecond(),
        }
    }

    fn step(&mut self) {
        match self.drive.order().expect("sound") {
            Order::Run { forward, .. } => {
                assert_eq!(self.drive.step(), Ok(()));
                self.net += if forward { 1 } else { -1 };
            }
            _ => assert_eq!(self.drive.step(), Err(5)),
        }
    }

    fn millisecond(&mut self) {
        let before = self.drive;
        assert_eq!(self.drive.millisecond(), Ok(()));
        match before.running.phase {
            Phase::Waiting => self.taken += 1,
            Phase::Delay => self.delay += 1,
            _ => assert_eq!(self.drive, before),
        }
    }

    /// A wait, by the milliseconds that it gives.
    fn wait(&mut self) {
        let mut waited = self.drive;
        let budget = self.random.between(1, 20) as u32;
        let (_, given) = waited.wait(budget).expect("a budget");
        for _ in 0..given {
            self.millisecond();
        }
        assert_eq!(self.drive, waited);
    }

    fn at_speed(&mut self) {
        let ramp_run = matches!(self.drive.order(), Ok(Order::Run { ramp: 10..=42, .. }));
        assert_eq!(self.drive.at_speed(), if ramp_run { Ok(()) } else { Err(6) });
    }

    fn halted(&mut self) {
        assert_eq!(self.drive.halted(), Err(6));
    }

    /// Any inputs but EE.
    fn inputs(&mut self) {
        let before = self.drive;
        let word = self.random.below(2048) as u32 & !EE;
        assert_eq!(self.drive.inputs(word), Ok(()));
        self.drive_is(Drive { inputs: self.drive.inputs, ..before });
    }

    fn string(&mut self) {
        let before = self.drive;
        let text = self.random.pick(&STRINGS);
        let string = format!("{:02}{text}\r", before.presets.address);
        assert!(self.drive.string(string.as_bytes(), &mut [0; 64]).is_ok());
        self.drive_is(before);
    }

    fn drive_is(&self, expected: Drive) {
        assert_eq!(self.drive, expected);
    }
}
