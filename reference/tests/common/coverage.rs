//! Scripts reach every phase of every code by every event, every refusal of every operation, both
//! answers to every command and request, the rare happenings, images with every field at its ends and
//! beyond them, and totals of every kind of walk, each at least so many times.

use crate::images::{judged, PRESETS};
use crate::scripts::{walk, Call, Moment};
use crate::targets::{waiting, LONGEST};
use crate::walks::{walked, Ended, Walked, ALLOWED};
use reference::generate::layout::{self, Field};
use reference::instruction::Instruction;
use reference::memory::{Drive, Phase, Remaining, Resolution};
use reference::raw;
use reference::reasons::phase_name;
use reference::wait::End;
use std::collections::BTreeMap;

const CODES: [&str; 20] = [
    "00", "01", "02", "03", "05", "11", "12", "21", "22", "31", "32", "57", "58", "60", "61", "62",
    "63", "65", "69", "70",
];

/// 01: "Phases: waiting; delay (65); run (for 03 its fast part); braking (05 after its stop);
/// slowing (02, 32, 03); emergency slowing (ramp runs); back (03 at LL)."
const PHASES: [(&str, &[&str]); 7] = [
    ("waiting", &CODES),
    ("delay", &["65"]),
    ("run", &["01", "02", "03", "05", "11", "12", "21", "22", "31", "32"]),
    ("braking", &["05"]),
    ("slowing", &["02", "32", "03"]),
    ("emergency slowing", &["01", "31", "02", "32", "03", "05"]),
    ("back", &["03"]),
];

pub type Counts = BTreeMap<String, usize>;

pub fn count(counts: &mut Counts, key: impl ToString) {
    *counts.entry(key.to_string()).or_default() += 1;
}

/// Every key has been counted so often, and no other key at all.
pub fn all_counted(counts: &Counts, keys: &[String], least: usize) {
    println!("{counts:#?}");
    for key in keys {
        let seen = counts.get(key).copied().unwrap_or(0);
        assert!(seen >= least, "{key}: {seen} times");
    }
    for key in counts.keys() {
        assert!(keys.contains(key), "{key} is not in the list");
    }
}

/// The 42 pairs of phase and code that 01 allows.
fn pairs() -> Vec<String> {
    let rows = PHASES.iter();
    rows.flat_map(|(phase, codes)| codes.iter().map(move |code| format!("{phase} {code}")))
        .collect()
}

/// The pair that a busy drive stands in.
fn pair(drive: &Drive) -> Option<String> {
    let present = drive.cells.get(usize::from(drive.running.cell).checked_sub(100)?)?;
    Some(format!("{} {}", phase_name(drive.running.phase), code(present.instruction)))
}

fn code(instruction: Instruction) -> &'static str {
    use Instruction::*;
    match instruction {
        Null => "00",
        IndexedRamp { .. } => "01",
        FreeRamp { .. } => "02",
        ZeroSearch { .. } => "03",
        DelayedStop { .. } => "05",
        Indexed { .. } => "11",
        Free { .. } => "12",
        IndexedFine { .. } => "21",
        FreeFine { .. } => "22",
        IndexedRampFine { .. } => "31",
        FreeRampFine { .. } => "32",
        CamSetting { .. } => "57",
        OutputSetting { .. } => "58",
        CounterReset => "60",
        OpeningLoop { .. } => "61",
        ClosingLoop { .. } => "62",
        ConditionalJump { .. } => "63",
        TimeDelay { .. } => "65",
        Recovery => "69",
        CurrentSetting { .. } => "70",
    }
}

pub fn phases(scripts: &[Vec<Call>], least: usize) {
    let mut counts = Counts::new();
    walk(scripts, |moment| {
        if moment.after.sound() && moment.seen.refusal.is_none() {
            pair(moment.after).into_iter().for_each(|pair| count(&mut counts, pair));
        }
    });
    assert_eq!(pairs().len(), 42);
    all_counted(&counts, &pairs(), least);
}

const FIELDS: &str =
    "ad in rs es cm pos inp camset campos errcode errcell reccell recrest recloop \
                      cell phase rest loop mark out";

/// The field that a raw write names, or the code of a cell; nothing for a code that there isn't.
fn raw_name(words: &[&str]) -> Option<String> {
    if FIELDS.split_whitespace().any(|field| field == words[0]) {
        return Some(words[0].to_string());
    }
    let known = CODES.iter().any(|code| code.parse::<u8>() == words[1].parse());
    known.then(|| format!("code {}", words[1]))
}

pub fn raw_writes(scripts: &[Vec<Call>], least: usize) {
    let mut counts = Counts::new();
    walk(scripts, |moment| {
        let Call::Raw(words) = moment.call else { return };
        let words: Vec<&str> = words.iter().map(String::as_str).collect();
        let written = raw::write(moment.before, &words).expect("a well-formed raw write");
        let outcome = if written.is_some_and(|drive| drive.sound()) { "sound" } else { "not" };
        let name = raw_name(&words);
        name.iter().for_each(|name| count(&mut counts, format!("{name} {outcome}")));
    });
    let codes = CODES.iter().map(|code| format!("code {}", code.parse::<u8>().unwrap()));
    let names = FIELDS.split_whitespace().map(str::to_string).chain(codes);
    let keys = names.flat_map(|name| [format!("{name} sound"), format!("{name} not")]);
    all_counted(&counts, &keys.collect::<Vec<_>>(), least);
}

const EVENTS: [&str; 12] = [
    "string ES",
    "string EE",
    "word ES",
    "word EE",
    "word PX",
    "word without",
    "word ST",
    "M",
    "P",
    "A",
    "H",
    "W",
];

/// What a call is to a busy drive; a word can be several things at once.
fn events(moment: &Moment) -> Vec<&'static str> {
    let on = |word: u32, bit: u32| word >> bit & 1 == 1;
    match moment.call {
        Call::String { bytes, .. } if bytes.ends_with(b"ES\r") && bytes.len() == 5 => {
            vec!["string ES"]
        }
        Call::String { bytes, .. } if bytes.ends_with(b"EE\r") && bytes.len() == 5 => {
            vec!["string EE"]
        }
        Call::Inputs(word) => {
            let bits = [(9, "word ES"), (10, "word EE"), (3, "word PX"), (8, "word ST")];
            let mut kinds: Vec<_> =
                bits.iter().filter(|(bit, _)| on(*word, *bit)).map(|(_, kind)| *kind).collect();
            if !on(*word, 9) && !on(*word, 10) && !on(*word, 3) {
                kinds.push("word without");
            }
            kinds
        }
        Call::Millisecond => vec!["M"],
        Call::Step => vec!["P"],
        Call::AtSpeed => vec!["A"],
        Call::Halted => vec!["H"],
        Call::Wait(1..=1_000_000) => vec!["W"],
        _ => vec![],
    }
}

pub fn events_in_phases(scripts: &[Vec<Call>], least: usize) {
    let mut counts = Counts::new();
    walk(scripts, |moment| {
        let Some(pair) = pair(moment.before).filter(|_| moment.before.sound()) else { return };
        let events = events(&moment);
        events.iter().for_each(|event| count(&mut counts, format!("{pair} {event}")));
    });
    let keys: Vec<String> =
        pairs().iter().flat_map(|pair| EVENTS.map(|event| format!("{pair} {event}"))).collect();
    all_counted(&counts, &keys, least);
}

// 01, "By operation": which refusals each operation has.
pub fn refusals(scripts: &[Vec<Call>], least: usize) {
    let mut counts = Counts::new();
    walk(scripts, |moment| {
        if let Some(refusal) = moment.seen.refusal {
            count(&mut counts, format!("{} {refusal}", operation(moment.call)));
        }
    });
    let refusals = [
        "fresh 1",
        "string 2",
        "string 3",
        "inputs 2",
        "inputs 4",
        "millisecond 2",
        "order 2",
        "step 2",
        "step 5",
        "at-speed 2",
        "at-speed 6",
        "halted 2",
        "halted 6",
        "rounding 7",
        "wait 2",
        "wait 8",
        "reading 2",
        "image 2",
        "image 9",
        "load 10",
        "totals 2",
        "totals 11",
        "totals 12",
        "totals 13",
        "map 2",
        "image bytes 2",
    ];
    all_counted(&counts, &refusals.map(str::to_string), least);
}

fn operation(call: &Call) -> &'static str {
    match call {
        Call::Fresh(_) => "fresh",
        Call::String { .. } => "string",
        Call::Inputs(_) => "inputs",
        Call::Millisecond => "millisecond",
        Call::Step => "step",
        Call::AtSpeed => "at-speed",
        Call::Halted => "halted",
        Call::Wait(_) => "wait",
        Call::Order => "order",
        Call::Rounding(_) => "rounding",
        Call::Reading => "reading",
        Call::Raw(_) => "raw",
        Call::Image { .. } => "image",
        Call::Load(_) => "load",
        Call::Totals(_) => "totals",
        Call::Map => "map",
        Call::Record => "record",
        Call::ImageBytes => "image bytes",
    }
}

/// What came of a string: Y, N, an answer to a request, or silence.
pub fn reply(moment: &Moment) -> &'static str {
    match moment.seen.answer {
        None => "silent",
        Some(4) if moment.seen.buffer[2] == b'Y' => "Y",
        Some(4) => "N",
        Some(_) => "answered",
    }
}

pub fn commands(scripts: &[Vec<Call>], least: usize) {
    let commands = ["WN", "WS", "PS", "EE", "ES", "SA", "SO", "SC"];
    let requests = ["QA", "QS", "QI", "QO", "QM", "QC", "QE", "QR"];
    let mut counts = Counts::new();
    walk(scripts, |moment| {
        let Call::String { bytes, .. } = moment.call else { return };
        let code = bytes
            .get(2..4)
            .map(|code| String::from_utf8_lossy(code).into_owned())
            .unwrap_or_default();
        let known = commands.contains(&code.as_str()) || requests.contains(&code.as_str());
        if known && moment.seen.refusal.is_none() {
            count(&mut counts, format!("{code} {}", reply(&moment)));
        }
    });
    let accepted = commands
        .map(|code| format!("{code} Y"))
        .into_iter()
        .chain(requests.map(|code| format!("{code} answered")));
    let others = commands
        .iter()
        .chain(&requests)
        .flat_map(|code| [format!("{code} N"), format!("{code} silent")]);
    all_counted(&counts, &accepted.chain(others).collect::<Vec<_>>(), least);
}

/// The first fields of a string to the drive's own address.
pub fn fields(moment: &Moment) -> Vec<String> {
    let Call::String { bytes, .. } = moment.call else { return vec![] };
    let bytes = bytes.strip_suffix(b"\r").unwrap_or(bytes);
    let text = String::from_utf8_lossy(bytes);
    let own = format!("{:02}", moment.before.presets.address);
    text.strip_prefix(&own)
        .map(|text| text.split(',').map(str::to_string).collect())
        .unwrap_or_default()
}

pub fn instructions_and_presets(scripts: &[Vec<Call>], least: usize) {
    let mut counts = Counts::new();
    walk(scripts, |moment| {
        let fields = fields(&moment);
        let names: Vec<&str> = fields.iter().map(String::as_str).collect();
        match names.as_slice() {
            ["WN", _, code, ..] if CODES.contains(code) => {
                count(&mut counts, format!("WN {code} {}", reply(&moment)))
            }
            ["WS", name, ..] if PRESETS.contains(name) => {
                count(&mut counts, format!("WS {name} {}", reply(&moment)))
            }
            ["QS", name] if PRESETS.contains(name) => {
                count(&mut counts, format!("QS {name} {}", reply(&moment)))
            }
            _ => {}
        }
    });
    counts.retain(|key, _| !key.ends_with("silent"));
    let cells = CODES.iter().flat_map(|code| [format!("WN {code} Y"), format!("WN {code} N")]);
    let presets = PRESETS.iter().flat_map(|name| {
        [format!("WS {name} Y"), format!("WS {name} N"), format!("QS {name} answered")]
    });
    all_counted(&counts, &cells.chain(presets).collect::<Vec<_>>(), least);
}

/// What happens seldom: its name, and how a moment is known to be one.
pub type Happening = (&'static str, fn(&Moment) -> bool);

const HAPPENINGS: [Happening; 32] = [
    ("error 50", |m| new_error(m) == 50),
    ("error 51", |m| new_error(m) == 51),
    ("error 52", |m| new_error(m) == 52),
    ("error 51 on resuming", |m| new_error(m) == 51 && taken(m, "69")),
    ("error 52 on resuming", |m| new_error(m) == 52 && taken(m, "69")),
    ("a start clears an error", |m| {
        m.before.fault.code != 0 && m.after.fault.code == 0 && !m.after.idle()
    }),
    ("the longest relative shift runs", |m| {
        !m.before.presets.absolute && shift(m) == 33_554_428 && !taken(m, "69")
    }),
    ("the longest absolute shift runs at x1", |m| {
        i64::from(shift(m)) == LONGEST && far(m, 1) == LONGEST
    }),
    ("the longest absolute shift runs at x4", |m| {
        i64::from(shift(m)) == LONGEST && far(m, 4) == LONGEST
    }),
    ("one step more is error 50 at x1", |m| new_error(m) == 50 && far(m, 1) == LONGEST + 1),
    ("one step more is error 50 at x4", |m| new_error(m) == 50 && far(m, 4) == LONGEST + 1),
    ("a 69 resumes a longer rest in absolute mode", |m| {
        m.before.presets.absolute && taken(m, "69") && i64::from(shift(m)) > LONGEST
    }),
    ("a 69 resumes a run", |m| {
        taken(m, "69") && m.after.running.phase == Phase::Run && record(m.before) != 0
    }),
    ("a 69 resumes a delay", |m| {
        taken(m, "69") && m.after.running.phase == Phase::Delay && record(m.before) != 0
    }),
    ("a 69 takes a cell anew", |m| {
        taken(m, "69") && m.before.suspended.cell != 0 && record(m.before) == 0
    }),
    ("a 69 without a record", |m| taken(m, "69") && m.before.suspended.cell == 0 && m.after.idle()),
    ("a 69 interrupted", |m| {
        stopped(m) && waits_at(m.before, "69") && m.before.suspended.cell != 0
    }),
    ("an interrupted run is recorded", |m| {
        stopped(m) && matches!(m.after.suspended.remaining, Remaining::Steps(_))
    }),
    ("an interrupted delay is recorded", |m| {
        stopped(m) && matches!(m.after.suspended.remaining, Remaining::Milliseconds(_))
    }),
    ("a loop count is recorded", |m| stopped(m) && m.after.suspended.loop_count != 0),
    ("the rest falls to 0 while slowing", |m| {
        *m.call == Call::Step && m.before.running.phase == Phase::EmergencySlowing && m.after.idle()
    }),
    ("a delayed stop passes on", |m| {
        *m.call == Call::Step && m.before.running.phase == Phase::Braking && !m.after.moving()
    }),
    ("a zero search halts with PX off", |m| {
        *m.call == Call::Halted
            && m.before.running.phase == Phase::Slowing
            && waits_at(m.before, "03")
            && !m.after.moving()
    }),
    ("WN of changed content empties the record", |m| {
        wrote(m) && m.before.suspended.cell != 0 && m.after.suspended.cell == 0
    }),
    ("WN of equal content leaves the record", |m| {
        wrote(m) && m.before == m.after && written_cell(m) == m.before.suspended.cell.to_string()
    }),
    ("PS rejected while EE is on", |m| {
        m.before.inputs.ee
            && m.before.idle()
            && fields(m).len() == 2
            && fields(m)[0] == "PS"
            && reply(m) == "N"
    }),
    ("ST starts while ES is on", |m| started(m) && m.after.inputs.es),
    ("ES forbids a start by ST", |m| {
        edge(m) && m.before.idle() && m.after.idle() && m.after.inputs.es && !m.after.inputs.ee
    }),
    ("the cam fires", |m| *m.call == Call::Step && m.before.cam.set && !m.after.cam.set),
    ("the position passes an end", |m| {
        *m.call == Call::Step && m.before.position.checked_sub(m.after.position).is_none()
    }),
    ("a wait of 1,000,000 is spent", |m| m.seen.wait == Some((End::Spent, 1_000_000))),
    ("a string of over 64 bytes is rejected", |m| {
        matches!(m.call, Call::String { bytes, .. } if bytes.len() > 64) && reply(m) == "N"
    }),
];

fn new_error(m: &Moment) -> u8 {
    let new = !m.before.idle()
        && m.after.idle()
        && m.before.fault.code == 0
        && *m.call == Call::Millisecond;
    if new {
        m.after.fault.code
    } else {
        0
    }
}

fn waits_at(drive: &Drive, wanted: &str) -> bool {
    pair(drive).is_some_and(|pair| pair.ends_with(wanted))
}

/// A millisecond that takes a cell of this code.
pub fn taken(m: &Moment, wanted: &str) -> bool {
    *m.call == Call::Millisecond
        && pair(m.before).is_some_and(|pair| pair == format!("waiting {wanted}"))
}

/// The shift of an indexed run that this millisecond begins.
fn shift(m: &Moment) -> u32 {
    match m.after.running.remaining {
        Remaining::Steps(steps) if *m.call == Call::Millisecond && !m.before.moving() => {
            steps.unsigned_abs()
        }
        _ => 0,
    }
}

/// How far the target is of an absolute run of this m, which this millisecond takes.
fn far(moment: &Moment, times: i64) -> i64 {
    let taken = *moment.call == Call::Millisecond && moment.before.presets.absolute;
    match waiting(moment.before) {
        Some((n, m, _)) if taken && m == times => (n - i64::from(moment.before.position)).abs(),
        _ => 0,
    }
}

/// What is left in the record, as a number.
fn record(drive: &Drive) -> i64 {
    match drive.suspended.remaining {
        Remaining::Nothing => 0,
        Remaining::Steps(steps) => steps.into(),
        Remaining::Milliseconds(milliseconds) => milliseconds.into(),
    }
}

/// A string or a word or a halt that makes a busy drive idle.
pub fn stopped(m: &Moment) -> bool {
    !m.before.idle()
        && m.after.idle()
        && matches!(m.call, Call::String { .. } | Call::Inputs(_) | Call::Halted)
}

fn wrote(m: &Moment) -> bool {
    reply(m) == "Y" && fields(m)[0] == "WN"
}

fn written_cell(m: &Moment) -> String {
    fields(m)[1].clone()
}

fn edge(m: &Moment) -> bool {
    matches!(m.call, Call::Inputs(_)) && !m.before.inputs.st && m.after.inputs.st
}

fn started(m: &Moment) -> bool {
    edge(m) && m.before.idle() && !m.after.idle()
}

pub fn happenings(scripts: &[Vec<Call>], least: usize) {
    let mut counts = Counts::new();
    walk(scripts, |moment| {
        let another_drive = matches!(moment.call, Call::Raw(_) | Call::Fresh(_) | Call::Load(_));
        if !moment.before.sound() || another_drive {
            return;
        }
        let happened = HAPPENINGS.iter().filter(|(_, known)| known(&moment));
        happened.for_each(|(name, _)| count(&mut counts, name));
    });
    all_counted(&counts, &HAPPENINGS.map(|(name, _)| name.to_string()), least);
}

/// The operation, the state of the drive, and `done` or the refusal.
pub fn outcome(moment: &Moment) -> String {
    let state = match moment.before {
        drive if !drive.sound() => "unsound",
        drive if drive.idle() => "idle",
        drive if drive.moving() => "moving",
        _ => "waiting",
    };
    let outcome = moment.seen.refusal.map_or("done".to_string(), |number| number.to_string());
    format!("{} {state} {outcome}", operation(moment.call))
}

/// Records of drives in every phase, idle and unsound, and the bytes of images in every state.
pub fn looks(scripts: &[Vec<Call>], least: usize) {
    let mut counts = Counts::new();
    walk(scripts, |moment| match moment.call {
        Call::Record if !moment.before.sound() => count(&mut counts, "record unsound"),
        Call::Record if moment.before.idle() => count(&mut counts, "record idle"),
        Call::Record => {
            count(&mut counts, format!("record {}", phase_name(moment.before.running.phase)))
        }
        Call::ImageBytes => count(&mut counts, outcome(&moment)),
        _ => {}
    });
    let records = PHASES.map(|(phase, _)| format!("record {phase}"));
    let others = ["record idle", "record unsound", "image bytes unsound 2"].map(str::to_string);
    let images = ["idle", "waiting", "moving"].map(|state| format!("image bytes {state} done"));
    all_counted(&counts, &[&records[..], &others, &images].concat(), least);
}

/// Drives that an image is asked of, and that one is loaded over.
pub fn images(scripts: &[Vec<Call>], least: usize) {
    let mut counts = Counts::new();
    walk(scripts, |moment| {
        if matches!(moment.call, Call::Image { .. } | Call::Load(_)) {
            count(&mut counts, outcome(&moment));
        }
    });
    let sound = ["idle", "waiting", "moving"];
    let images = sound.map(|state| [format!("image {state} done"), format!("image {state} 9")]);
    let loads = sound.map(|state| [format!("load {state} done"), format!("load {state} 10")]);
    let unsound = ["image unsound 2", "load unsound done", "load unsound 10"].map(str::to_string);
    let keys = images.into_iter().chain(loads).flatten().chain(unsound);
    all_counted(&counts, &keys.collect::<Vec<_>>(), least);
}

/// What an image can show, or have wrong, at one of its numbers.
fn image_keys(name: &str, field: Field) -> Vec<String> {
    let marks: &[&str] = match field {
        Field::Code => &[],
        Field::Frequency => &["lowest", "highest", "not in the table"],
        Field::Next => &["000", "lowest", "highest", "below", "above"],
        // What is above 32 bits is too large for any number.
        Field::Within(0, high) if high == u32::MAX.into() => &["lowest", "highest"],
        Field::Within(0, _) => &["lowest", "highest", "above"],
        Field::Within(..) => &["lowest", "highest", "below", "above"],
    };
    marks.iter().map(|mark| format!("{name} {mark}")).collect()
}

pub fn image_fields(scripts: &[Vec<Call>], least: usize) {
    let mut counts = Counts::new();
    walk(scripts, |moment| {
        let Call::Load(bytes) = moment.call else { return };
        match judged(bytes) {
            Ok(ends) => ends.iter().for_each(|end| count(&mut counts, end)),
            Err(fault) => count(&mut counts, fault),
        }
    });
    let faults = ["cut", "after the end", "longer form", "too large", "unknown code"];
    let faults = faults.iter().chain(&["unset cam with a number"]).map(|fault| fault.to_string());
    let presets = PRESETS.iter().zip(layout::PRESETS);
    let presets = presets.flat_map(|(name, field)| image_keys(name, field));
    let fields = layout::CODES.iter().flat_map(|(code, fields)| {
        (1..).zip(*fields).flat_map(move |(place, f)| image_keys(&format!("{code}.{place}"), *f))
    });
    all_counted(&counts, &faults.chain(presets).chain(fields).collect::<Vec<_>>(), least);
}

/// Drives that totals are asked of.
pub fn totals(scripts: &[Vec<Call>], least: usize) {
    let mut counts = Counts::new();
    walk(scripts, |moment| {
        if let Call::Totals(_) = moment.call {
            count(&mut counts, outcome(&moment));
        }
    });
    let outcomes = ["done", "11", "12", "13"];
    let sound = ["idle", "waiting", "moving"];
    let sound = sound.map(|state| outcomes.map(|outcome| format!("totals {state} {outcome}")));
    let keys = sound.into_iter().flatten().chain(["totals unsound 2".to_string()]);
    all_counted(&counts, &keys.collect::<Vec<_>>(), least);
}

/// A call for totals, and what is met from its start on where that is a cell of a sound drive.
struct Asked<'a> {
    drive: &'a Drive,
    start: u32,
    walked: Option<Walked>,
}

impl Asked<'_> {
    fn starts_at_a_cell(&self) -> bool {
        (100..=230).contains(&self.start)
    }

    /// The walk, where it ends at 000.
    fn done(&self) -> Option<&Walked> {
        self.walked.as_ref().filter(|walked| walked.ended == Ended::At000)
    }

    fn cells(&self) -> usize {
        self.done().map_or(0, |walked| walked.cells.len())
    }

    fn net(&self) -> i64 {
        self.done().map_or(0, |walked| walked.steps().iter().sum())
    }

    /// Some cell moves the motor, in a walk that ends at 000.
    fn moves(&self) -> bool {
        self.done().is_some_and(|walked| walked.steps().iter().any(|steps| *steps != 0))
    }

    fn delays(&self) -> Vec<u32> {
        self.done().map_or(vec![], Walked::delays)
    }

    /// How many cells are met before one again, and the place of that one.
    fn round(&self) -> Option<(usize, usize)> {
        let walked = self.walked.as_ref()?;
        let Ended::MetTwice(again) = walked.ended else { return None };
        let place = walked.cells.iter().position(|(address, _)| *address == again);
        Some((walked.cells.len(), place.expect("a cell that was met")))
    }

    /// How many cells are met up to one of another code, and whether that one leads on.
    fn other_code(&self) -> Option<(usize, bool)> {
        let walked = self.walked.as_ref().filter(|walked| walked.ended == Ended::OtherCode)?;
        let (_, fields) = walked.cells.last()?;
        Some((walked.cells.len(), !matches!(fields.last()?.as_str(), "000" | "69")))
    }

    /// Runs before and behind a 60.
    fn runs_around_a_60(&self) -> bool {
        self.done().is_some_and(|walked| {
            let moves = |steps: &[i64]| steps.iter().any(|steps| *steps != 0);
            let steps = walked.steps();
            let resets = walked.cells.iter().enumerate().filter(|(_, cell)| cell.1[0] == "60");
            resets.map(|(at, _)| at).any(|at| moves(&steps[..at]) && moves(&steps[at..]))
        })
    }
}

/// What a call for totals can meet: its name, and how it is known.
type Met = (&'static str, fn(&Asked) -> bool);

const MET: [Met; 40] = [
    ("an unsound drive, from a cell", |a| !a.drive.sound() && a.starts_at_a_cell()),
    ("an unsound drive, from no cell", |a| !a.drive.sound() && !a.starts_at_a_cell()),
    ("from 000", |a| a.start == 0 && a.drive.sound()),
    ("from 99", |a| a.start == 99 && a.drive.sound()),
    ("from 100", |a| a.start == 100 && a.drive.sound()),
    ("from 230", |a| a.start == 230 && a.drive.sound()),
    ("from 231", |a| a.start == 231 && a.drive.sound()),
    ("from 255", |a| a.start == 255 && a.drive.sound()),
    ("from 256", |a| a.start == 256 && a.drive.sound()),
    ("from a cell in 8 bits", |a| (356..=486).contains(&a.start) && a.drive.sound()),
    ("from a cell in 16 bits", |a| (65_636..=65_766).contains(&a.start) && a.drive.sound()),
    ("from 4294967295", |a| a.start == u32::MAX && a.drive.sound()),
    ("one cell", |a| a.cells() == 1),
    ("2 to 9 cells", |a| (2..=9).contains(&a.cells())),
    ("10 to 130 cells", |a| (10..=130).contains(&a.cells())),
    ("131 cells", |a| a.cells() == 131),
    ("a cell that leads to itself, met first", |a| a.round() == Some((1, 0))),
    ("a cell that leads to itself, met later", |a| {
        a.round().is_some_and(|(cells, place)| place > 0 && place == cells - 1)
    }),
    ("back to the start", |a| a.round().is_some_and(|(cells, place)| cells > 1 && place == 0)),
    ("back to a cell between", |a| {
        a.round().is_some_and(|(cells, place)| place > 0 && place < cells - 1)
    }),
    ("131 cells round", |a| a.round().is_some_and(|(cells, _)| cells == 131)),
    ("another code at the start", |a| a.other_code().is_some_and(|(cells, _)| cells == 1)),
    ("another code on the way", |a| {
        a.other_code().is_some_and(|(cells, leads_on)| cells > 1 && leads_on)
    }),
    ("another code at the end", |a| {
        a.other_code().is_some_and(|(cells, leads_on)| cells > 1 && !leads_on)
    }),
    ("another code far on", |a| a.other_code().is_some_and(|(cells, _)| cells >= 100)),
    ("absolute mode", |a| a.moves() && a.drive.presets.absolute),
    ("a record", |a| a.moves() && a.drive.suspended.cell != 0),
    ("an error", |a| a.moves() && a.drive.fault.code != 0),
    ("EE on", |a| a.moves() && a.drive.inputs.ee),
    ("a start at the present cell", |a| a.start == a.drive.running.cell.into() && a.moves()),
    ("net steps of more than 31 bits", |a| a.net() > 2_147_483_647),
    ("net steps of more than 31 bits back", |a| a.net() < -2_147_483_648),
    ("net steps of more than 32 bits", |a| a.net() > 4_294_967_295),
    ("net steps of more than 32 bits back", |a| a.net() < -4_294_967_295),
    ("runs there and back", |a| a.moves() && a.net() == 0),
    ("runs before and behind a 60", |a| a.runs_around_a_60()),
    ("a delay of 0", |a| a.delays().contains(&0)),
    ("delays of more than 16 bits", |a| a.delays().iter().sum::<u32>() > 65_535),
    ("delays of more than 24 bits", |a| a.delays().iter().sum::<u32>() > 16_777_215),
    ("131 of the longest delays", |a| a.delays() == [8_388_607; 131]),
];

/// Codes of a walk that ends at 000, and RS where it has an x4; or the code at which it is refused.
fn codes_and_rs(asked: &Asked) -> Vec<String> {
    let Some(walked) = &asked.walked else { return vec![] };
    let fields = || walked.cells.iter().map(|(_, fields)| fields);
    match walked.ended {
        Ended::MetTwice(_) => vec![],
        Ended::OtherCode => {
            fields().next_back().map(|f| format!("13 at {}", f[0])).into_iter().collect()
        }
        Ended::At000 => {
            let codes = ALLOWED.iter().filter(|code| fields().any(|f| f[0] == **code));
            let x4 = fields().any(|f| f.iter().any(|field| field == "x4"));
            let rs = x4.then(|| format!("x4 under {}", asked.drive.presets.resolution.name()));
            codes.map(|code| format!("along {code}")).chain(rs).collect()
        }
    }
}

pub fn walks(scripts: &[Vec<Call>], least: usize) {
    let mut counts = Counts::new();
    walk(scripts, |moment| {
        let Call::Totals(start) = *moment.call else { return };
        let mut asked = Asked { drive: moment.before, start, walked: None };
        if asked.drive.sound() && asked.starts_at_a_cell() {
            asked.walked = Some(walked(asked.drive, start as u8));
        }
        let met = MET.iter().filter(|(_, known)| known(&asked));
        met.for_each(|(name, _)| count(&mut counts, name));
        codes_and_rs(&asked).iter().for_each(|key| count(&mut counts, key));
    });
    let met = MET.iter().map(|(name, _)| name.to_string());
    let codes = CODES.iter().map(|code| {
        let sort = if ALLOWED.contains(code) { "along" } else { "13 at" };
        format!("{sort} {code}")
    });
    let rs = Resolution::NAMES.iter().map(|name| format!("x4 under {name}"));
    all_counted(&counts, &met.chain(codes).chain(rs).collect::<Vec<_>>(), least);
}
