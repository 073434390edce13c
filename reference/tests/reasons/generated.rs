//! Generated strings: what is explained is what the drive does, and the field that a reason names is
//! the one to mend.

use crate::scripts::{calls, walk, Call, Moment};
use reference::generate::script;
use reference::memory::Drive;
use reference::reasons::Explanation;
use reference::serial::BROADCAST;
use std::collections::BTreeMap;

const SCRIPTS: u64 = 600;
const CALLS: usize = 300;

/// Every string of the scripts that was not refused, with its moment and what is explained of it.
fn each_string(mut visit: impl FnMut(&[u8], &Moment, Explanation)) {
    let scripts: Vec<Vec<Call>> = (0..SCRIPTS).map(|seed| calls(&script(seed, CALLS))).collect();
    walk(&scripts, |moment| {
        let Call::String { bytes, .. } = moment.call else { return };
        if moment.seen.refusal.is_none() {
            let explanation = moment.before.explain(bytes).expect("the drive is sound");
            visit(bytes, &moment, explanation);
        }
    });
}

/// A short name for what is explained, to count it by.
fn kind(explanation: &Explanation) -> String {
    let words = |sentence: &str| -> Vec<String> {
        sentence.split(' ').map(|word| word.trim_end_matches(':').to_string()).collect()
    };
    match explanation {
        Explanation::Taken => "taken".to_string(),
        Explanation::Rejected(sentence) | Explanation::Silent(sentence) => {
            let words = words(sentence);
            match words[0].as_str() {
                "field" => format!("field {} {}", words[1], words[3..5].join(" ")),
                "the" | "input" | "address" | "carried" => words[..4].join(" "),
                "code" => "count of a code".to_string(),
                _ => words[1..4].join(" "),
            }
        }
    }
}

#[test]
fn n_and_silence_are_explained_exactly_where_they_are() {
    let mut found = BTreeMap::new();
    each_string(|bytes, moment, explanation| {
        let answer = moment.seen.answer.map(|length| &moment.seen.buffer[..length]);
        let shown = String::from_utf8_lossy(bytes);
        match &explanation {
            Explanation::Taken => {
                assert!(answer.is_some_and(|answer| !answer.ends_with(b"N\r")), "{shown}")
            }
            Explanation::Rejected(_) => {
                assert!(answer.is_some_and(|answer| answer[2..] == *b"N\r"), "{shown}");
                assert_eq!(moment.before, moment.after, "{shown}");
            }
            Explanation::Silent(sentence) => {
                assert_eq!(answer, None, "{shown}");
                assert!(
                    moment.before == moment.after || sentence.starts_with("carried out"),
                    "{shown}"
                );
            }
        }
        assert!(!explanation.sentence().ends_with('.'), "{shown}");
        *found.entry(kind(&explanation)).or_insert(0) += 1;
    });
    for (kind, least) in KINDS {
        let count = found.get(kind).copied().unwrap_or(0);
        assert!(count >= least, "{kind}: {count} of {least} in {found:#?}");
    }
}

/// Kinds of reason, and how often each is among the strings at least.
const KINDS: [(&str, usize); 18] = [
    ("taken", 10_000),
    ("carried out; address 99", 50),
    ("the string is empty", 20),
    ("the last byte is", 20),
    ("the first two characters", 50),
    ("the string is for", 50),
    ("the drive is busy", 500),
    ("address 99 is for", 20),
    ("the string has over", 20),
    ("the string has no", 10),
    ("is no command", 50),
    ("is no instruction", 10),
    ("count of a code", 50),
    ("input EE is on,", 10),
    ("field 1 is out", 50),
    ("field 3 is out", 50),
    ("field 3 has exactly", 20),
    ("field 5 is a", 10),
];

// What was carried out for all drives is what the drive's own address would have made it do.
#[test]
fn address_99_is_carried_out_exactly_where_that_is_explained() {
    let mut found = 0;
    each_string(|bytes, moment, explanation| {
        if !bytes.starts_with(BROADCAST.to_string().as_bytes()) {
            return;
        }
        let mut alone = *moment.before;
        let own = format!("{:02}", alone.presets.address);
        let answer = answered(&mut alone, &[own.as_bytes(), &bytes[2..]].concat());
        if explanation.sentence().starts_with("carried out") {
            assert_eq!(answer[2..], *b"Y\r");
            assert_eq!(alone, *moment.after);
            found += 1;
        } else {
            assert_eq!(moment.before, moment.after);
        }
    });
    assert!(found > 50, "{found}");
}

fn answered(drive: &mut Drive, string: &[u8]) -> Vec<u8> {
    let mut buffer = [0; 64];
    let length = drive.string(string, &mut buffer).expect("the drive is sound");
    buffer[..length.unwrap_or(0)].to_vec()
}

/// A right value for every kind of field.
const RIGHT: [&str; 15] =
    ["100", "00", "05", "20", "+5", "+", "x1", "0", "1", "O0", "I0", "AD", "D0", "0224", "000"];

/// The number of the field that a rejection names.
fn named(explanation: &Explanation) -> Option<usize> {
    let Explanation::Rejected(sentence) = explanation else { return None };
    let (_, after) = sentence.split_once("field ")?;
    after.split(' ').next()?.parse().ok()
}

/// What is explained of a string in which one field has each of the right values in turn.
fn mended(drive: &Drive, bytes: &[u8], number: usize) -> Vec<Explanation> {
    let fields: Vec<&[u8]> = bytes[..bytes.len() - 1].split(|byte| *byte == b',').collect();
    let with = |value: &str| {
        let mut fields = fields.clone();
        fields[number] = value.as_bytes();
        let string = [&fields.join(&b','), b"\r".as_slice()].concat();
        drive.explain(&string).expect("the drive is sound")
    };
    RIGHT.into_iter().map(with).collect()
}

/// Whether a field settles what the fields after it are: CC of a WN, VV of a WS.
fn settles(bytes: &[u8], number: usize) -> bool {
    (&bytes[2..4], number) == (b"WN", 2) || (&bytes[2..4], number) == (b"WS", 1)
}

/// Mends a wrong string: that field is then wrong no more, and no other field mends the string. True
/// where it was the only wrong one, so that the string is taken.
fn mending_helps(drive: &Drive, bytes: &[u8], number: usize) -> bool {
    let shown = String::from_utf8_lossy(bytes);
    let outcomes = mended(drive, bytes, number);
    let mends = |outcome: &Explanation| named(outcome) != Some(number);
    assert!(outcomes.iter().any(mends), "{shown}: field {number} stays wrong");
    let others = (1..bytes.split(|byte| *byte == b',').count()).filter(|other| *other != number);
    for other in others.filter(|other| !settles(bytes, *other)) {
        let taken = mended(drive, bytes, other).contains(&Explanation::Taken);
        assert!(!taken, "{shown}: field {number} is named, and field {other} mends it");
    }
    outcomes.contains(&Explanation::Taken)
}

#[test]
fn the_field_that_is_named_is_the_one_to_mend() {
    let mut taken = BTreeMap::new();
    each_string(|bytes, moment, explanation| {
        if let Some(number) = named(&explanation) {
            let helps = mending_helps(moment.before, bytes, number);
            let (all, mended) = taken.entry(number).or_insert((0, 0));
            *all += 1;
            *mended += usize::from(helps);
        }
    });
    for number in 1..=8 {
        let (all, mended) = taken.get(&number).copied().unwrap_or((0, 0));
        assert!(all > 0 && mended > all / 4, "field {number}: {taken:?}");
    }
}
