//! Programs for totals: cells that each name the next one, at addresses in any order. By them
//! scripts get walks of every length and ending, and tests get programs to run.

use super::random::Random;
use crate::frequency::TABLE;
use crate::instruction::{Cell, Instruction, Instruction::*, LONGEST_DELAY, MOST_STEPS};

/// Cells with their addresses, in the order in which they are met.
pub type Walk = Vec<(u8, Cell)>;

/// What the cells of a walk hold.
#[derive(Clone, Copy, PartialEq, Eq, Debug)]
pub enum Content {
    /// Every code that totals allow, with at most so many steps either way and milliseconds.
    Mixed { steps: i32, milliseconds: u32 },
    /// Runs of the most steps there are, all in one direction.
    Farthest { forward: bool },
    /// The longest delays there are.
    Longest,
}

/// Where the last cell of a walk leads.
#[derive(Clone, Copy, PartialEq, Eq, Debug)]
pub enum Ending {
    /// To 000.
    End,
    First,
    /// To any of its cells.
    Back,
    Itself,
}

/// A walk of 1 to 131 cells.
pub fn walk(random: &mut Random, length: usize, content: Content, ending: Ending) -> Walk {
    let addresses = addresses(random, length);
    let last = match ending {
        Ending::End => 0,
        Ending::First => addresses[0],
        Ending::Back => random.pick(&addresses),
        Ending::Itself => addresses[length - 1],
    };
    let nexts = addresses[1..].iter().chain([&last]);
    let pairs = addresses.iter().zip(nexts);
    pairs
        .map(|(address, next)| {
            (*address, Cell { instruction: allowed(random, content), next: *next })
        })
        .collect()
}

/// Different addresses in no order.
fn addresses(random: &mut Random, length: usize) -> Vec<u8> {
    let mut addresses: Vec<u8> = (100..=230).collect();
    for place in 0..length {
        let other = place + random.below(addresses.len() - place);
        addresses.swap(place, other);
    }
    addresses.truncate(length);
    addresses
}

/// Puts another code in a cell of a walk. A 69 has no next.
pub fn put_other_code(random: &mut Random, walk: &mut Walk, place: usize) {
    let cell = &mut walk[place].1;
    cell.instruction = other(random);
    if cell.instruction == Recovery {
        cell.next = 0;
    }
}

fn allowed(random: &mut Random, content: Content) -> Instruction {
    match content {
        Content::Mixed { steps, milliseconds } => mixed(random, steps, milliseconds),
        Content::Farthest { forward: true } => run(random, MOST_STEPS, true),
        Content::Farthest { forward: false } => run(random, -MOST_STEPS, true),
        Content::Longest => TimeDelay { milliseconds: LONGEST_DELAY },
    }
}

fn mixed(random: &mut Random, most_steps: i32, most_milliseconds: u32) -> Instruction {
    let on = random.once_in(2);
    match random.below(16) {
        0 => Null,
        1 => CamSetting { set: on, position: if on { random.between(-9, 9) as i32 } else { 0 } },
        2 => OutputSetting { output: random.below(13) as u8, on },
        3 => CounterReset,
        4 => CurrentSetting { on },
        5..=7 => TimeDelay { milliseconds: up_to(random, most_milliseconds.into()) as u32 },
        _ => {
            let sign = random.pick(&[-1, 1]);
            let steps = sign * up_to(random, most_steps.into()) as i32;
            run(random, steps, on)
        }
    }
}

/// A number up to `most`, its ends more often than others.
fn up_to(random: &mut Random, most: i64) -> i64 {
    match random.below(6) {
        0 => 0,
        1 => most,
        _ => random.between(0, most),
    }
}

fn run(random: &mut Random, steps: i32, x4: bool) -> Instruction {
    let ramp = random.between(10, 42) as u8;
    match random.below(4) {
        0 => IndexedRamp { frequency: random.between(3, 24) as u8, ramp, steps, x4 },
        1 => IndexedRampFine { frequency: random.between(30, 240) as u8, ramp, steps, x4 },
        2 => Indexed { frequency: random.between(2, 30) as u8, steps, x4 },
        _ => IndexedFine { frequency: random.pick(&TABLE), steps, x4 },
    }
}

/// An instruction of a code that totals don't allow.
pub fn other(random: &mut Random) -> Instruction {
    let (forward, x4) = (random.once_in(2), random.once_in(2));
    let jump = random.between(100, 230) as u8;
    match random.below(10) {
        0 => FreeRamp { frequency: 10, ramp: 20, forward, x4 },
        1 => ZeroSearch { frequency: 10, ramp: 20, forward, slow: 5 },
        2 => DelayedStop { frequency: 10, ramp: 20, forward, steps: 3, x4 },
        3 => Free { frequency: 5, forward, x4 },
        4 => FreeFine { frequency: 2181, forward, x4 },
        5 => FreeRampFine { frequency: 100, ramp: 20, forward, x4 },
        6 => OpeningLoop { count: 2 },
        7 => ClosingLoop { jump },
        8 => ConditionalJump { input: random.below(16) as u8, on: forward, jump },
        _ => Recovery,
    }
}
