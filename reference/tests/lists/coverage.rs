//! Random frames reach every kind and status, every word, and all that can be seen of each.

use reference::frames::serve;
use reference::generate::lists::frames;
use reference::lists::{words, Word};
use std::collections::BTreeMap;

const LEAST: usize = 20;
const KEYS: [&str; 45] = [
    "V 0",
    "F 0",
    "F 1",
    "L 0",
    "L 100",
    "L 101",
    "L 102",
    "R 0",
    "R 10",
    "X 0",
    "long 103",
    "empty 104",
    "V 104",
    "F 104",
    "X 104",
    "other 104",
    "cut 105",
    "S answered",
    "S silent",
    "S 3",
    "I 0",
    "I 4",
    "M 0",
    "P 0",
    "P 5",
    "A 0",
    "A 6",
    "H 0",
    "H 6",
    "W 8",
    "W idle",
    "W moving",
    "W spent",
    "B stand",
    "B slow",
    "B run",
    "B backward",
    "B ramp",
    "B outputs",
    "G all",
    "G fewer",
    "G none",
    "G of 0",
    "G of 4294967295",
    "L empty",
];

type Counts = BTreeMap<String, usize>;

#[test]
fn random_frames_reach_everything() {
    let mut counts = Counts::new();
    for seed in 0..500 {
        let requests = frames(seed, 40);
        let mut answers = Vec::new();
        serve(&requests[..], &mut answers);
        let (requests, answers) = (split(&requests), split(&answers));
        assert_eq!(requests.len(), answers.len());
        for (request, answer) in requests.iter().zip(&answers) {
            count_frame(&mut counts, request, answer);
        }
    }
    println!("{counts:#?}");
    for key in KEYS {
        let found = counts.get(key).copied().unwrap_or(0);
        assert!(found >= LEAST, "{key}: {found} times");
    }
    for key in counts.keys() {
        assert!(KEYS.contains(&key.as_str()), "{key} is not in the list");
    }
}

// Nothing of a sequence depends on anything but its seed, and each has the frames asked for.
#[test]
fn a_seed_gives_one_sequence() {
    for seed in 0..20 {
        assert_eq!(frames(seed, 30), frames(seed, 30));
        let whole = split(&frames(seed, 30)).iter().filter(|frame| frame.is_ok()).count();
        assert_eq!(whole, 30);
    }
    assert_ne!(frames(1, 30), frames(2, 30));
}

/// The frames of some bytes; what is left of a cut one is an error.
fn split(mut bytes: &[u8]) -> Vec<Result<&[u8], &[u8]>> {
    let mut frames = Vec::new();
    while !bytes.is_empty() {
        let length = bytes.first_chunk().map(|length| u32::from_le_bytes(*length) as usize);
        match length.filter(|length| 4 + length <= bytes.len()) {
            Some(length) => {
                frames.push(Ok(&bytes[4..4 + length]));
                bytes = &bytes[4 + length..];
            }
            None => {
                frames.push(Err(bytes));
                bytes = &[];
            }
        }
    }
    frames
}

fn count(counts: &mut Counts, key: impl ToString) {
    *counts.entry(key.to_string()).or_default() += 1;
}

fn count_frame(counts: &mut Counts, request: &Result<&[u8], &[u8]>, answer: &Result<&[u8], &[u8]>) {
    let answer = answer.expect("answers are whole");
    let kind = match request {
        Err(_) => "cut".to_string(),
        Ok([]) => "empty".to_string(),
        Ok(long) if long.len() > 16_385 => "long".to_string(),
        Ok([kind @ (b'V' | b'F' | b'L' | b'R' | b'X'), ..]) => char::from(*kind).to_string(),
        Ok(_) => "other".to_string(),
    };
    match (request, answer) {
        (Ok([b'L']), [0]) => count(counts, "L empty"),
        (Ok([b'L', list @ ..]), [0, seen @ ..]) => {
            count(counts, "L 0");
            count_words(counts, list, seen);
        }
        _ => count(counts, format!("{kind} {}", answer[0])),
    }
}

fn count_words(counts: &mut Counts, list: &[u8], mut seen: &[u8]) {
    for word in words(list) {
        let word = word.expect("a list that was carried out");
        let length = match word {
            Word::String { .. } => 2 + usize::from(seen[1]),
            _ => word.most(),
        };
        let (shown, rest) = seen.split_at(length);
        count_word(counts, word, shown);
        seen = rest;
    }
    assert!(seen.is_empty());
}

fn count_word(counts: &mut Counts, word: Word, shown: &[u8]) {
    match (word, shown) {
        (Word::String { .. }, [0, 0]) => count(counts, "S silent"),
        (Word::String { .. }, [0, ..]) => count(counts, "S answered"),
        (Word::String { .. }, [refusal, ..]) => count(counts, format!("S {refusal}")),
        (Word::Inputs(_), [refusal, ..]) => count(counts, format!("I {refusal}")),
        (Word::Millisecond, [refusal, ..]) => count(counts, format!("M {refusal}")),
        (Word::Step, [refusal, ..]) => count(counts, format!("P {refusal}")),
        (Word::AtSpeed, [refusal, ..]) => count(counts, format!("A {refusal}")),
        (Word::Halted, [refusal, ..]) => count(counts, format!("H {refusal}")),
        (Word::Wait(_), [0, end, ..]) => {
            count(counts, ["W refused", "W idle", "W moving", "W spent"][usize::from(*end)])
        }
        (Word::Wait(_), [refusal, ..]) => count(counts, format!("W {refusal}")),
        (Word::Order, order) => count_order(counts, order),
        (Word::Travel(most), travel) => count_travel(counts, most, travel),
        (_, []) => panic!("{word:?} shows nothing"),
    }
}

fn count_order(counts: &mut Counts, shown: &[u8]) {
    count(counts, ["B stand", "B slow", "B run"][usize::from(shown[1])]);
    let facts = [
        ("B backward", shown[3] & 4 != 0),
        ("B ramp", shown[4] != 0),
        ("B outputs", shown[13..] != [0; 4]),
    ];
    for (key, _) in facts.iter().filter(|(_, holds)| *holds) {
        count(counts, key);
    }
}

fn count_travel(counts: &mut Counts, most: u32, shown: &[u8]) {
    let given = u32::from_le_bytes(shown[1..].try_into().expect("four bytes"));
    let key = match (most, given) {
        (0, _) => "G of 0",
        (_, 0) => "G none",
        _ if given == most => "G all",
        _ => "G fewer",
    };
    count(counts, key);
    if most == u32::MAX {
        count(counts, "G of 4294967295");
    }
}
