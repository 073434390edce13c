//! A list is its calls made one by one: over generated scripts, what is seen of every word is what
//! the public methods give, and the drive after a list is the one after its calls.

use crate::scripts::{calls, carry_out, Call, Seen};
use crate::{inputs_word, seen, string_with_room, wait_word, ROOM};
use reference::board::Order;
use reference::generate::random::Random;
use reference::generate::script;
use reference::lists::perform;
use reference::memory::{Drive, OUTPUT_NAMES};
use reference::wait::End;

#[test]
fn a_list_is_its_calls_made_one_by_one() {
    let mut words = 0;
    for seed in 0..400 {
        words += compare(&calls(&script(seed, 300)), &mut Random::new(seed));
    }
    assert!(words > 60_000, "{words} words");
}

/// A list that is being filled, and what must be seen of it.
#[derive(Default)]
struct Batch {
    list: Vec<u8>,
    seen: Vec<u8>,
    words: usize,
}

/// Puts the calls of a script into lists of random length. Gives how many words there were.
fn compare(script: &[Call], random: &mut Random) -> usize {
    let mut one_by_one = Drive::fresh(0).expect("01 takes address 0");
    let mut listed = one_by_one;
    let (mut batch, mut words) = (Batch::default(), 0);
    for call in script {
        let Some((word, call)) = word_of(call) else {
            words += give(&mut listed, &one_by_one, &mut batch);
            carry_out(&mut one_by_one, call);
            listed = one_by_one;
            continue;
        };
        if !one_by_one.sound() {
            assert_eq!(perform(&mut listed, &word, ROOM), Err(2));
            continue;
        }
        batch.list.extend(word);
        batch.words += 1;
        let done = carry_out(&mut one_by_one, &call);
        batch.seen.extend(bytes_of(&call, &done, &one_by_one));
        if random.once_in(20) {
            words += give(&mut listed, &one_by_one, &mut batch);
        }
    }
    words + give(&mut listed, &one_by_one, &mut batch)
}

/// Gives the list to the drive, which must then be as the other.
fn give(listed: &mut Drive, one_by_one: &Drive, batch: &mut Batch) -> usize {
    let Batch { list, seen: expected, words } = std::mem::take(batch);
    if words > 0 {
        assert_eq!(seen(listed, &list), expected);
    }
    assert_eq!(listed, one_by_one);
    words
}

/// The word of a call, and the call with what the word can hold; nothing where there is no such
/// word.
fn word_of(call: &Call) -> Option<(Vec<u8>, Call)> {
    let letter = |letter: &[u8]| Some((letter.to_vec(), call.clone()));
    match call {
        Call::String { bytes, length, fill } => {
            let room = (*length).min(255);
            let held = Call::String { bytes: bytes.clone(), length: room, fill: *fill };
            Some((string_with_room(room as u8, bytes), held))
        }
        Call::Inputs(word) => {
            let word = (*word).min(65_535);
            Some((inputs_word(word as u16), Call::Inputs(word)))
        }
        Call::Wait(budget) => Some((wait_word(*budget), call.clone())),
        Call::Millisecond => letter(b"M"),
        Call::Step => letter(b"P"),
        Call::AtSpeed => letter(b"A"),
        Call::Halted => letter(b"H"),
        Call::Order => letter(b"B"),
        _ => None,
    }
}

/// What the protocol shows of a call.
fn bytes_of(call: &Call, done: &Seen, after: &Drive) -> Vec<u8> {
    let refusal = done.refusal.unwrap_or(0);
    match call {
        Call::String { .. } => {
            let answer = &done.buffer[..done.answer.unwrap_or(0)];
            [&[refusal, answer.len() as u8], answer].concat()
        }
        Call::Wait(_) => {
            let (end, given) = match done.wait {
                None => (0, 0),
                Some((End::Idle, given)) => (1, given),
                Some((End::Moving, given)) => (2, given),
                Some((End::Spent, given)) => (3, given),
            };
            [&[refusal, end], &given.to_le_bytes()[..]].concat()
        }
        Call::Order => [&[0], &order_bytes(after)[..], &output_bytes(after)].concat(),
        _ => vec![refusal],
    }
}

fn order_bytes(drive: &Drive) -> Vec<u8> {
    let signals = u8::from(drive.outputs.cu) + 2 * u8::from(drive.outputs.fc);
    let plain = |kind| [&[kind, drive.presets.current, signals], &[0; 9][..]].concat();
    match drive.order().expect("a sound drive") {
        Order::Stand { .. } => plain(0),
        Order::Slow { .. } => plain(1),
        Order::Run { forward, hertz, ramp, remaining, current, .. } => {
            let backward = if forward { 0 } else { 4 };
            let head = [2, current, signals + backward, ramp];
            [&head[..], &hertz.to_le_bytes(), &remaining.to_le_bytes()].concat()
        }
    }
}

fn output_bytes(drive: &Drive) -> [u8; 4] {
    let bits = (0..OUTPUT_NAMES.len()).rev();
    bits.fold(0, |word: u32, place| 2 * word + u32::from(drive.outputs.get(place))).to_le_bytes()
}
