//! 02: "The steps are those that an uninterrupted run makes, if RS allows x4." Random programs on
//! random drives are started and carried through, and what a board counts is what the totals said.

use crate::board::Board;
use reference::generate::random::Random;
use reference::generate::walks::{other, walk, Content, Ending, Walk};
use reference::instruction::{Cell, Instruction};
use reference::memory::{Cam, Drive, Fault, Inputs, Remaining, Resolution, Suspended};

/// A drive with a walk in its memory and any past: idle, in relative mode, EE off, and with an RS
/// that allows x4.
fn any_drive(random: &mut Random, walk: &Walk) -> Drive {
    let mut drive = Drive::fresh(random.below(48) as u32).expect("01 takes addresses up to 47");
    drive.presets.current = random.below(4) as u8;
    drive.presets.resolution =
        random.pick(&[Resolution::D2, Resolution::D3, Resolution::B2, Resolution::B3]);
    drive.presets.stop_blocks_start = random.once_in(2);
    drive.inputs = Inputs::of(random.below(1024) as u32);
    (0..14).for_each(|place| drive.outputs.set(place, random.once_in(2)));
    drive.cells.iter_mut().for_each(|cell| *cell = beside(random));
    for (address, cell) in walk {
        drive.cells[usize::from(address - 100)] = *cell;
    }
    drive.position = any_position(random);
    if random.once_in(2) {
        let position = drive.position.wrapping_add(random.between(-9, 9) as i32);
        drive.cam = Cam { set: true, position };
    }
    if random.once_in(3) {
        drive.fault = Fault { code: random.between(50, 52) as u8, cell: any_cell(random) };
    }
    if random.once_in(2) {
        drive.suspended = any_record(random, &drive);
    }
    assert!(drive.sound() && drive.idle());
    drive
}

fn any_cell(random: &mut Random) -> u8 {
    random.between(100, 230) as u8
}

/// A cell beside the walk, of a code that the walk doesn't have.
fn beside(random: &mut Random) -> Cell {
    let instruction = other(random);
    let next = if instruction == Instruction::Recovery { 0 } else { any_cell(random) };
    Cell { instruction, next }
}

/// One in two so near an end of 32 bits that a few steps pass it.
fn any_position(random: &mut Random) -> i32 {
    let off = random.between(0, 9) as i32;
    match random.below(4) {
        0 => i32::MAX - off,
        1 => i32::MIN + off,
        _ => random.between(i32::MIN.into(), i32::MAX.into()) as i32,
    }
}

fn any_record(random: &mut Random, drive: &Drive) -> Suspended {
    let cell = any_cell(random);
    let rest = random.between(1, 33_554_428);
    let remaining = match drive.cell(cell).instruction {
        Instruction::TimeDelay { .. } => Remaining::Milliseconds(rest as u32),
        run if run.is_indexed() => Remaining::Steps(-rest as i32),
        _ => Remaining::Nothing,
    };
    Suspended { cell, remaining, loop_count: random.below(65_536) as u16 }
}

/// Runs a program to its end and compares what was counted with its totals. Gives the net steps.
fn as_the_totals_say(random: &mut Random, walk: &Walk) -> i64 {
    let before = any_drive(random, walk);
    let first = walk[0].0;
    let totals = before.totals(first.into()).expect("a walk to 000");
    let mut board = Board::start(before, first, random);
    board.run(usize::MAX);
    assert_eq!((board.net, board.delay), (totals.net, totals.delay), "{walk:?}");
    assert_eq!(board.taken, walk.len());
    assert_eq!(board.drive.suspended, before.suspended);
    assert_eq!(board.drive.cells, before.cells);
    if walk.iter().all(|(_, cell)| cell.instruction != Instruction::CounterReset) {
        // The position is the net steps in 32 bits.
        assert_eq!(board.drive.position, before.position.wrapping_add(totals.net as i32));
    }
    totals.net
}

fn few(random: &mut Random, length: usize) -> i64 {
    let content = Content::Mixed { steps: 6, milliseconds: 8 };
    let walk = walk(random, length, content, Ending::End);
    as_the_totals_say(random, &walk)
}

#[test]
fn a_run_makes_the_steps_and_delays_of_its_totals() {
    let mut random = Random::new(1);
    let (mut forward, mut back) = (0, 0);
    for _ in 0..3_000 {
        let length = random.between(1, 9) as usize;
        match few(&mut random, length).signum() {
            1 => forward += 1,
            -1 => back += 1,
            _ => {}
        }
    }
    assert!(forward > 500 && back > 500, "{forward} forward, {back} back");
}

#[test]
fn a_run_over_many_cells_makes_the_steps_and_delays_of_its_totals() {
    let mut random = Random::new(2);
    for length in [100, 120, 130, 131, 131, 131] {
        for _ in 0..20 {
            few(&mut random, length);
        }
    }
}

#[test]
fn a_long_run_makes_the_steps_and_delays_of_its_totals() {
    let mut random = Random::new(3);
    for _ in 0..12 {
        let content = Content::Mixed { steps: 20_000, milliseconds: 100_000 };
        let walk = walk(&mut random, 4, content, Ending::End);
        as_the_totals_say(&mut random, &walk);
    }
}

#[test]
fn a_circle_never_ends() {
    let mut random = Random::new(4);
    for _ in 0..400 {
        let ending = random.pick(&[Ending::First, Ending::Back, Ending::Itself]);
        let length = random.between(1, 9) as usize;
        let walk = walk(&mut random, length, Content::Mixed { steps: 3, milliseconds: 4 }, ending);
        let drive = any_drive(&mut random, &walk);
        assert_eq!(drive.totals(walk[0].0.into()), Err(12));
        let mut board = Board::start(drive, walk[0].0, &mut random);
        board.run(1_000);
        assert!(!board.drive.idle() && board.taken > length, "{walk:?}");
    }
}
