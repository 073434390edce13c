//! The map of used cells over scripts: what is kept is what a fresh count gives. Scripts ask for it
//! in every state, and their WNs add ways and take them off in every manner, each at least so many
//! times.

use crate::coverage::{all_counted, count, outcome, reply, Counts};
use crate::reached::{all_ways, bits, by_passes, has_circle, Bits, Ways};
use crate::scripts::{walk, Call, Moment};
use reference::memory::{Drive, Running};
use reference::usage::UsedCells;

/// 02: "After every list of WN strings, from a fresh or loaded drive with its map so counted, the
/// map is what a fresh count over the cells gives."
pub fn kept_is_counted(scripts: &[Vec<Call>]) {
    let mut used = UsedCells::count(&Drive::fresh(0).expect("01 takes address 0"));
    let mut counted = bits(&used);
    walk(scripts, |moment| {
        let another = matches!(moment.call, Call::Fresh(_) | Call::Load(_) | Call::Raw(_));
        if another {
            used = UsedCells::count(moment.after);
        }
        follow(&mut used, &moment);
        if !moment.after.sound() {
            return;
        }
        if another || moment.before.cells != moment.after.cells {
            counted = by_passes(&all_ways(moment.after));
        }
        assert_eq!(bits(&used), counted, "after {:?}", moment.call);
    });
}

/// 02: "no answer depends on it". With its map a drive does what it does without.
fn follow(used: &mut UsedCells, moment: &Moment) {
    let Call::String { bytes, length, fill } = moment.call else { return };
    let (mut drive, mut buffer) = (*moment.before, vec![*fill; *length]);
    let result = used.string(&mut drive, bytes, &mut buffer);
    assert_eq!((result.err(), result.ok().flatten()), (moment.seen.refusal, moment.seen.answer));
    assert_eq!((drive, &buffer), (*moment.after, &moment.seen.buffer));
}

/// Where the drive in use came from, and what was written since.
#[derive(Default)]
struct Past {
    loaded: bool,
    raw_cell: bool,
    written: bool,
}

impl Past {
    fn see(&mut self, moment: &Moment) {
        let changed = moment.before.cells != moment.after.cells;
        match moment.call {
            Call::Fresh(_) | Call::Load(_) if moment.seen.refusal.is_none() => {
                let loaded = matches!(moment.call, Call::Load(_));
                *self = Past { loaded, ..Past::default() };
            }
            Call::Raw(_) if changed => self.raw_cell = true,
            Call::String { .. } if changed => self.written = true,
            _ => {}
        }
    }

    fn name(&self) -> &'static str {
        match self {
            Past { raw_cell: true, .. } => "with a cell written raw",
            Past { loaded: true, written: true, .. } => "loaded, then written",
            Past { loaded: true, .. } => "loaded",
            Past { written: true, .. } => "fresh, then written",
            _ => "fresh",
        }
    }
}

/// Maps in every state of a drive, and of drives of every past; those of cells beside the first 16
/// alone, but for a fresh one.
pub fn maps(scripts: &[Vec<Call>], least: usize) {
    let (mut counts, mut past) = (Counts::new(), Past::default());
    walk(scripts, |moment| {
        past.see(&moment);
        if *moment.call != Call::Map {
            return;
        }
        count(&mut counts, outcome(&moment));
        let more = moment.before.sound() && used_cells(moment.before) > 16;
        if more || past.name() == "fresh" {
            count(&mut counts, past.name());
        }
    });
    let states = ["map idle done", "map waiting done", "map moving done", "map unsound 2"];
    let pasts =
        ["with a cell written raw", "loaded, then written", "loaded", "fresh, then written"];
    let keys = states.iter().chain(&pasts).chain(&["fresh"]).map(|key| key.to_string());
    all_counted(&counts, &keys.collect::<Vec<_>>(), least);
}

fn used_cells(drive: &Drive) -> usize {
    let used = UsedCells::count(drive);
    (100..=230).filter(|cell| used.has(*cell)).count()
}

/// A WN that was answered Y, the ways of its cell before and after, and what became of the map.
struct Edit<'a> {
    moment: &'a Moment<'a>,
    code: String,
    place: usize,
    old: Vec<usize>,
    ways: Ways,
    was: Bits,
    is: Bits,
}

impl Edit<'_> {
    fn of<'a>(moment: &'a Moment, text: &str) -> Edit<'a> {
        let fields: Vec<&str> = text.split(',').collect();
        let place = fields[1].parse::<usize>().expect("a cell") - 100;
        let (before, ways) = (all_ways(moment.before), all_ways(moment.after));
        let (was, is) = (by_passes(&before), by_passes(&ways));
        Edit {
            moment,
            code: fields[2].to_string(),
            place,
            old: before[place].clone(),
            ways,
            was,
            is,
        }
    }

    fn used(&self) -> bool {
        self.was[self.place]
    }

    fn added(&self) -> Vec<usize> {
        self.ways[self.place].iter().copied().filter(|way| !self.old.contains(way)).collect()
    }

    fn taken_off(&self) -> Vec<usize> {
        self.old.iter().copied().filter(|way| !self.ways[self.place].contains(way)).collect()
    }

    fn only_added(&self) -> bool {
        self.used() && !self.added().is_empty() && self.taken_off().is_empty()
    }

    fn loses(&self) -> bool {
        self.used() && !self.taken_off().is_empty()
    }

    fn brought_in(&self) -> Bits {
        std::array::from_fn(|place| self.is[place] && !self.was[place])
    }

    fn dropped(&self) -> Bits {
        std::array::from_fn(|place| self.was[place] && !self.is[place])
    }

    fn more(&self) -> usize {
        number(&self.brought_in())
    }

    fn fewer(&self) -> usize {
        number(&self.dropped())
    }

    /// The content is another, and the ways are the same.
    fn same_ways(&self) -> bool {
        let changed = self.moment.before.cells != self.moment.after.cells;
        changed && self.added().is_empty() && self.taken_off().is_empty()
    }

    /// A way that is taken off led into a circle that stays used.
    fn circle_stays(&self) -> bool {
        let stays = |way: &usize| self.is[*way] && has_circle(&self.ways, &self.from(*way));
        self.loses() && self.taken_off().iter().any(stays)
    }

    /// What is reached from a place.
    fn from(&self, place: usize) -> Bits {
        let mut reached = [false; 131];
        let mut found = vec![place];
        while let Some(place) = found.pop() {
            if !reached[place] {
                reached[place] = true;
                found.extend(&self.ways[place]);
            }
        }
        reached
    }

    /// A cell that is dropped leads to itself.
    fn self_loop_dropped(&self) -> bool {
        let dropped = self.dropped();
        (0..131).any(|place| dropped[place] && self.ways[place].contains(&place))
    }
}

fn number(bits: &Bits) -> usize {
    bits.iter().filter(|bit| **bit).count()
}

/// What a WN can do: its name, and how it is known.
type Done = (&'static str, fn(&Edit) -> bool);

const DONE: [Done; 28] = [
    ("a way added brings one cell in", |e| e.only_added() && e.more() == 1),
    ("a way added brings several in", |e| e.only_added() && e.more() > 1),
    ("a way added brings over 50 in", |e| e.only_added() && e.more() > 50),
    ("a way added brings none in", |e| e.only_added() && e.more() == 0),
    ("a way added brings a circle in", |e| e.only_added() && has_circle(&e.ways, &e.brought_in())),
    ("a way taken off drops one cell", |e| e.loses() && e.fewer() == 1),
    ("a way taken off drops several", |e| e.loses() && e.fewer() > 1),
    ("a way taken off drops over 50", |e| e.loses() && e.fewer() > 50),
    ("a way taken off drops none, since another is left", |e| {
        e.loses() && e.fewer() == 0 && e.taken_off().iter().any(|way| *way > 15)
    }),
    ("a way to one of the first 16 taken off", |e| {
        e.loses() && e.taken_off().iter().any(|way| *way < 16)
    }),
    ("a circle dropped", |e| e.loses() && has_circle(&e.ways, &e.dropped())),
    ("a circle stays by another entry", |e| e.circle_stays()),
    ("a cell that leads to itself dropped", |e| e.loses() && e.self_loop_dropped()),
    ("cells come and go at once", |e| e.loses() && e.more() > 0 && e.fewer() > 0),
    ("cells come while a way is taken off that drops none", |e| {
        e.loses() && e.more() > 0 && e.fewer() == 0
    }),
    ("one of two ways taken off drops cells", |e| {
        e.loses() && e.fewer() > 0 && e.old.len() == 2 && e.taken_off().len() == 1
    }),
    ("a 62 brings two cells in", |e| e.code == "62" && e.more() > 1 && e.added().len() == 2),
    ("a 63 brings two cells in", |e| e.code == "63" && e.more() > 1 && e.added().len() == 2),
    ("a 69 drops cells", |e| e.code == "69" && e.loses() && e.fewer() > 0),
    ("a cell beyond 115 loses a way and drops cells", |e| {
        e.loses() && e.place > 15 && e.fewer() > 0
    }),
    ("a cell beyond 115 brings cells in", |e| e.only_added() && e.place > 15 && e.more() > 0),
    ("116 brought in", |e| e.brought_in()[16]),
    ("116 dropped", |e| e.dropped()[16]),
    ("some of 228 to 230 brought in", |e| e.brought_in()[128..].contains(&true)),
    ("some of 228 to 230 dropped", |e| e.dropped()[128..].contains(&true)),
    ("a cell that is not used gets other ways", |e| {
        !e.used() && (!e.added().is_empty() || !e.taken_off().is_empty())
    }),
    ("other content with equal ways", |e| e.used() && e.same_ways()),
    ("equal content", |e| e.used() && e.moment.before == e.moment.after),
];

/// WNs that change nothing. But for N, the same WN to the idle drive's own address would change the
/// map.
const IN_VAIN: [&str; 6] =
    ["N", "busy", "to all drives", "to another drive", "refused 2", "refused 3"];

/// Why a WN is not taken.
fn in_vain(moment: &Moment, bytes: &[u8]) -> &'static str {
    match moment.seen.refusal {
        Some(2) => return "refused 2",
        Some(_) => return "refused 3",
        None => {}
    }
    match bytes {
        _ if reply(moment) == "N" => "N",
        [b'9', b'9', ..] => "to all drives",
        _ if !bytes.starts_with(format!("{:02}", moment.before.presets.address).as_bytes()) => {
            "to another drive"
        }
        _ => "busy",
    }
}

/// Whether the WN would change the map of a sound and idle drive with these cells.
fn would_change(drive: &Drive, bytes: &[u8]) -> bool {
    let mut idle = Drive { running: Running::IDLE, ..*drive };
    let before = UsedCells::count(&idle);
    let own = format!("{:02}", idle.presets.address).into_bytes();
    let _ = idle.string(&[&own, &bytes[2..]].concat(), &mut [0; 64]);
    UsedCells::count(&idle) != before
}

pub fn edits(scripts: &[Vec<Call>], least: usize) {
    let mut counts = Counts::new();
    walk(scripts, |moment| {
        let Call::String { bytes, .. } = moment.call else { return };
        if bytes.get(2..5) != Some(b"WN,") || bytes.last() != Some(&13) {
            return;
        }
        if reply(&moment) == "Y" {
            let edit = Edit::of(&moment, &String::from_utf8_lossy(&bytes[2..bytes.len() - 1]));
            let done = DONE.iter().filter(|(_, known)| known(&edit));
            return done.for_each(|(name, _)| count(&mut counts, name));
        }
        let why = in_vain(&moment, bytes);
        if ["N", "refused 2"].contains(&why) || would_change(moment.before, bytes) {
            count(&mut counts, why);
        }
    });
    let keys = DONE.iter().map(|(name, _)| *name).chain(IN_VAIN).map(str::to_string);
    all_counted(&counts, &keys.collect::<Vec<_>>(), least);
}
