//! The numbers by which the engine refuses, each with its sentence.

use std::fmt;

/// Why a call, a list or a frame was refused. The drive is then as it was before.
#[derive(Clone, Copy, Debug, PartialEq, Eq, Hash)]
#[repr(u8)]
pub enum Refusal {
    Address = 1,
    Unsound = 2,
    AnswerBuffer = 3,
    InputsWord = 4,
    NoRun = 5,
    Report = 6,
    Frequency = 7,
    Budget = 8,
    Image = 10,
    Letter = 100,
    CutWord = 101,
    Room = 102,
    LongFrame = 103,
    Frame = 104,
    CutFrame = 105,
}

impl Refusal {
    /// Every refusal there is, by rising number.
    pub const ALL: [Refusal; 15] = [
        Refusal::Address,
        Refusal::Unsound,
        Refusal::AnswerBuffer,
        Refusal::InputsWord,
        Refusal::NoRun,
        Refusal::Report,
        Refusal::Frequency,
        Refusal::Budget,
        Refusal::Image,
        Refusal::Letter,
        Refusal::CutWord,
        Refusal::Room,
        Refusal::LongFrame,
        Refusal::Frame,
        Refusal::CutFrame,
    ];

    pub fn number(self) -> u8 {
        self as u8
    }

    pub fn of_number(number: u8) -> Option<Refusal> {
        Refusal::ALL.into_iter().find(|refusal| refusal.number() == number)
    }

    fn sentence(self) -> &'static str {
        match self {
            Refusal::Address => "the address of a drive is 0 to 47",
            Refusal::Unsound => "the drive is unsound: load an image or make a fresh one",
            Refusal::AnswerBuffer => "the buffer for the answer of a string needs 64 bytes",
            Refusal::InputsWord => "an inputs word is 0 to 2047",
            Refusal::NoRun => "a step is taken only while a run is under way",
            Refusal::Report => {
                "at-speed is taken only in the run or braking of a ramp run, halted only in slowing"
            }
            Refusal::Frequency => "a step frequency is 1 to 4800",
            Refusal::Budget => "the budget of a wait is 1 to 1000000 milliseconds",
            Refusal::Image => "these bytes are the memory image of no drive",
            Refusal::Letter => "a word of the list begins with a byte that is none of SIMPAHWBG",
            Refusal::CutWord => "the list ends within a word",
            Refusal::Room => {
                "what is seen of the list may need more than 65536 bytes: make it in two lists"
            }
            Refusal::LongFrame => {
                "a list or an image has at most 16384 bytes: make it in two lists"
            }
            Refusal::Frame => "the frame is empty, of no known kind, or not of its kind's length",
            Refusal::CutFrame => "the input ended within a frame",
        }
    }
}

impl fmt::Display for Refusal {
    fn fmt(&self, f: &mut fmt::Formatter) -> fmt::Result {
        write!(f, "{} (refusal {})", self.sentence(), self.number())
    }
}

impl std::error::Error for Refusal {}
