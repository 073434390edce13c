//! The order to the board, and the outputs.

use std::fmt;

/// What the order word shows.
#[derive(Clone, Copy, Debug, PartialEq, Eq)]
pub struct Shown {
    pub order: Order,
    pub outputs: Outputs,
}

/// The order to the board.
#[derive(Clone, Copy, Debug, PartialEq, Eq)]
pub struct Order {
    pub motion: Motion,
    /// The preset IN, 0 to 3.
    pub current: u8,
    /// CU: whether the motor has current.
    pub powered: bool,
    /// The output FC.
    pub fc: bool,
}

#[derive(Clone, Copy, Debug, PartialEq, Eq)]
pub enum Motion {
    Stand,
    /// Slow down until halted.
    Slow,
    Run(Run),
}

#[derive(Clone, Copy, Debug, PartialEq, Eq)]
pub struct Run {
    pub backward: bool,
    pub hertz: u32,
    /// 10 to 42, and 0 for a run without ramp.
    pub ramp: u8,
    /// Steps left, with the sign of the direction, and 0 where none are counted.
    pub rest: i32,
}

impl Order {
    pub fn run(&self) -> Option<Run> {
        match self.motion {
            Motion::Run(run) => Some(run),
            Motion::Stand | Motion::Slow => None,
        }
    }
}

/// The 14 outputs, from bit 0: O0 to O3, FC, F0 to F7, CU. Written as 14 digits in this order.
#[derive(Clone, Copy, Debug, Default, PartialEq, Eq, Hash)]
pub struct Outputs(u16);

impl Outputs {
    pub const NAMES: [&'static str; 14] =
        ["O0", "O1", "O2", "O3", "FC", "F0", "F1", "F2", "F3", "F4", "F5", "F6", "F7", "CU"];

    /// Outputs have 14 bits; more is none.
    pub fn of_bits(bits: u32) -> Option<Outputs> {
        u16::try_from(bits).ok().filter(|bits| *bits < 1 << 14).map(Outputs)
    }

    pub fn bits(self) -> u16 {
        self.0
    }

    /// Whether the output of that name is on; none where there is no such output.
    pub fn on(self, name: &str) -> Option<bool> {
        let place = Outputs::NAMES.iter().position(|known| *known == name)?;
        Some(self.0 >> place & 1 == 1)
    }
}

impl fmt::Display for Outputs {
    fn fmt(&self, f: &mut fmt::Formatter) -> fmt::Result {
        for place in 0..Outputs::NAMES.len() {
            write!(f, "{}", self.0 >> place & 1)?;
        }
        Ok(())
    }
}
