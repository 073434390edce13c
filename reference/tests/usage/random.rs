//! 02: "After every list of WN strings, from a fresh or loaded drive with its map so counted, the
//! map is what a fresh count over the cells gives." Random lists over few cells, so that chains and
//! circles come often. The ways are told from the texts that were answered Y.

use crate::kept::Kept;
use crate::reached::{all_ways, bits, by_passes, has_circle, ways, Bits, Ways};
use reference::generate::random::Random;
use reference::memory::Drive;
use reference::usage::UsedCells;
use std::collections::BTreeMap;

const LISTS: u64 = 4_000;
const STRINGS: usize = 150;

/// Contents without DDD, E standing for an EEE. Those with two ways come often.
const CONTENTS: [(usize, &str); 13] = [
    (6, "00"),
    (2, "65,9"),
    (1, "01,10,20,+5,x1"),
    (1, "05,10,20,-,3,x4"),
    (1, "21,2200,-9,x4"),
    (1, "57,1,-120"),
    (1, "58,F3,1"),
    (1, "61,120"),
    (6, "62,E"),
    (3, "63,I0,0,E"),
    (3, "63,F7,1,E"),
    (1, "70,1"),
    (3, "69"),
];

/// What is made of a WN that is in order.
#[derive(Clone, Copy)]
enum Sent {
    AsItIs,
    Wrong,
    Foreign,
    ToAll,
    WithoutEnd,
    ShortBuffer,
}

const SENT: [(usize, Sent); 6] = [
    (30, Sent::AsItIs),
    (2, Sent::Wrong),
    (1, Sent::Foreign),
    (1, Sent::ToAll),
    (1, Sent::WithoutEnd),
    (1, Sent::ShortBuffer),
];

type Counts = BTreeMap<&'static str, usize>;

/// A list under way, the cells that it writes and leads to, and what its texts say.
struct List {
    random: Random,
    cells: Vec<u8>,
    kept: Kept,
    ways: Ways,
    reached: Bits,
}

impl List {
    fn new(seed: u64) -> List {
        let mut random = Random::new(seed);
        let cells = some_cells(&mut random);
        let mut list = List::of(random, cells, Kept::fresh());
        if list.random.once_in(2) {
            (0..20).for_each(|_| list.cell_beforehand());
            list = List::of(list.random, list.cells, Kept::of(loaded(&list.kept.drive)));
        }
        list
    }

    fn of(random: Random, cells: Vec<u8>, kept: Kept) -> List {
        let ways = all_ways(&kept.drive);
        let reached = by_passes(&ways);
        List { random, cells, kept, ways, reached }
    }

    fn cell_beforehand(&mut self) {
        let (cell, content) = self.cell_and_content();
        self.kept.write(&format!("{cell},{content}"));
    }

    fn cell_and_content(&mut self) -> (u8, String) {
        let cell = self.random.pick(&self.cells);
        let content = self.random.weighted(&CONTENTS);
        if content == "69" {
            return (cell, content.to_string());
        }
        let jump = self.random.pick(&self.cells);
        let next = if self.random.once_in(4) { 0 } else { self.random.pick(&self.cells) };
        (cell, format!("{},{next:03}", content.replace('E', &jump.to_string())))
    }

    /// One string; a program is started now and then and soon stopped.
    fn string(&mut self, counts: &mut Counts) {
        if !self.kept.drive.idle() && self.random.once_in(3) {
            return self.command("EE");
        }
        if self.random.once_in(40) {
            return self.command("PS,100");
        }
        self.wn(counts);
        assert_eq!(bits(&self.kept.used), self.reached);
    }

    fn command(&mut self, text: &str) {
        let used = &mut self.kept.used;
        let string = format!("00{text}\r");
        used.string(&mut self.kept.drive, string.as_bytes(), &mut [0; 64]).expect("no refusal");
    }

    fn wn(&mut self, counts: &mut Counts) {
        let (cell, content) = self.cell_and_content();
        let (bytes, length) = self.sent(cell, &content);
        let mut buffer = vec![0; length];
        let result = self.kept.used.string(&mut self.kept.drive, &bytes, &mut buffer);
        let kind = match result {
            Err(_) => "refused",
            Ok(None) => "silent",
            Ok(Some(_)) if buffer[2] == b'N' => "N",
            Ok(Some(_)) => self.answered_y(usize::from(cell) - 100, &content),
        };
        *counts.entry(kind).or_default() += 1;
    }

    fn sent(&mut self, cell: u8, content: &str) -> (Vec<u8>, usize) {
        let text = format!("WN,{cell},{content}");
        let (string, length) = match self.random.weighted(&SENT) {
            Sent::AsItIs => (format!("00{text}\r"), 64),
            Sent::Wrong => {
                (format!("00{text}{}\r", self.random.pick(&[",", ",000", "0", " "])), 64)
            }
            Sent::Foreign => (format!("17{text}\r"), 64),
            Sent::ToAll => (format!("99{text}\r"), 64),
            Sent::WithoutEnd => (format!("00{text}"), 64),
            Sent::ShortBuffer => (format!("00{text}\r"), 63),
        };
        (string.into_bytes(), length)
    }

    /// Takes the ways from the text, and tells what became of the used cells.
    fn answered_y(&mut self, place: usize, content: &str) -> &'static str {
        let before = std::mem::replace(&mut self.ways[place], ways(content));
        let reached = by_passes(&self.ways);
        let was = std::mem::replace(&mut self.reached, reached);
        let dropped: Bits = std::array::from_fn(|place| was[place] && !reached[place]);
        let taken_off = before.iter().any(|way| !self.ways[place].contains(way));
        if dropped.contains(&true) {
            return if has_circle(&self.ways, &dropped) { "drops a circle" } else { "drops" };
        }
        match (was != reached, was[place] && taken_off) {
            (true, _) => "brings in",
            (false, true) => "taken off, drops none",
            (false, false) => "leaves",
        }
    }
}

/// Cells of which the first few are used as they are: neighbours or strewn, and often the ends.
fn some_cells(random: &mut Random) -> Vec<u8> {
    let mut cells = vec![100];
    (0..random.below(3)).for_each(|_| cells.push(random.between(101, 115) as u8));
    let first = random.pick(&[116, 116, 160, 224]);
    for place in 0..random.between(2, 7) as u8 {
        let strewn = random.between(116, 230) as u8;
        cells.push(if random.once_in(3) { strewn } else { first + place });
    }
    cells
}

/// The drive that the image of another gives.
fn loaded(drive: &Drive) -> Drive {
    let mut buffer = [0; 2048];
    let length = drive.image(&mut buffer).expect("a sound drive");
    Drive::load(&buffer[..length]).expect("the writer's own bytes")
}

#[test]
fn after_every_list_the_map_is_what_a_fresh_count_gives() {
    let mut counts = Counts::new();
    for seed in 0..LISTS {
        let mut list = List::new(seed);
        (0..STRINGS).for_each(|_| list.string(&mut counts));
        assert_eq!(list.ways, all_ways(&list.kept.drive));
        assert_eq!(list.kept.used, UsedCells::count(&list.kept.drive));
    }
    println!("{counts:?}");
    assert_eq!(counts.len(), 8);
    assert!(counts.values().all(|count| *count > 10_000), "{counts:?}");
}
