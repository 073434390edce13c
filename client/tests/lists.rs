//! Lists: their bytes, their limits, and whether they are judged as the engine judges them.

mod common;

use common::{engine, Random};
use cuminhamper::{List, Refusal, Seen, LIST_BYTES, SEEN_BYTES};

#[test]
fn each_word_has_its_bytes() {
    let mut list = List::new();
    list.string(b"00QA\r", 64).unwrap().inputs(0x0201).unwrap().millisecond().unwrap();
    list.step().unwrap().at_speed().unwrap().halted().unwrap();
    list.wait(1_000_000).unwrap().order().unwrap().travel(96).unwrap();
    assert_eq!(list.bytes(), b"S\x40\x05\x0000QA\rI\x01\x02MPAHW\x40\x42\x0f\0BG\x60\0\0\0");
    assert_eq!(list.letters(), b"SIMPAHWBG");
    assert_eq!(list.room(), 66 + 5 + 6 + 17 + 5);
    assert_eq!(List::parse(list.bytes()), Ok(list.clone()));
    list.clear();
    assert_eq!(list, List::new());
    assert!(list.is_empty());
}

#[test]
fn a_list_grows_to_its_limits_and_no_further() {
    let mut engine = engine();
    let mut long = List::new();
    while long.bytes().len() < LIST_BYTES {
        long.millisecond().unwrap();
    }
    assert_eq!(long.millisecond(), Err(Refusal::LongFrame));
    assert_eq!(engine.perform(&long).unwrap().len(), LIST_BYTES);

    let mut wide = List::new();
    while wide.room() + 17 <= SEEN_BYTES {
        wide.order().unwrap();
    }
    assert_eq!(wide.order(), Err(Refusal::Room));
    assert_eq!(wide.millisecond().unwrap().room(), SEEN_BYTES);
    assert_eq!(wide.millisecond(), Err(Refusal::Room), "a refused word is not added");
    assert_eq!(engine.perform(&wide).unwrap().len(), wide.len());

    let mut text = List::new();
    assert_eq!(text.string(&[b'0'; LIST_BYTES - 3], 64), Err(Refusal::LongFrame));
    text.string(&[b'0'; LIST_BYTES - 4], 64).unwrap();
    assert_eq!(engine.perform(&text).unwrap()[0].refusal(), None);
}

#[test]
fn lists_are_judged_as_the_engine_judges_them() {
    let mut engine = engine();
    let mut random = Random(5);
    let mut met = std::collections::BTreeSet::new();
    let mut answer = Vec::new();
    for round in 0..2_000 {
        let mut bytes = damaged(&mut random);
        if round % 50 == 0 {
            // Orders enough to have no room, before the damage or after it.
            let at = bytes.len() * random.below(2) as usize;
            bytes.splice(at..at, [b'B'; 3_860]);
        }
        let own = List::parse(&bytes).err().map_or(0, Refusal::number);
        engine.send_frame(&[&b"L"[..], &bytes].concat()).unwrap();
        engine.receive_frame(&mut answer).unwrap();
        assert_eq!(own, answer[0], "{}", bytes.escape_ascii());
        met.insert(own);
    }
    assert_eq!(met.into_iter().collect::<Vec<_>>(), [0, 100, 101, 102]);
}

/// A few words, some of them with a byte changed or cut off.
fn damaged(random: &mut Random) -> Vec<u8> {
    let mut bytes = Vec::new();
    for _ in 0..random.below(6) {
        bytes.extend_from_slice(random.word(64).bytes());
    }
    let place = random.below(bytes.len() as u32 + 1) as usize;
    match random.below(3) {
        0 => bytes.truncate(place),
        1 if place < bytes.len() => bytes[place] = random.below(256) as u8,
        _ => {}
    }
    bytes
}

#[test]
fn a_list_is_made_again_and_again_into_one_vector() {
    let mut engine = engine();
    assert_eq!(engine.string(b"00WN,100,12,05,+,x1,000\r").unwrap(), b"00Y\r");
    assert_eq!(engine.string(b"00PS,100\r").unwrap(), b"00Y\r");
    engine.millisecond().unwrap();
    let mut list = List::new();
    let mut seen = Vec::with_capacity(3);
    let place = seen.as_ptr();
    for round in 1..=100 {
        list.clear();
        list.travel(round).unwrap().millisecond().unwrap().order().unwrap();
        engine.perform_into(&list, &mut seen).unwrap();
        assert_eq!((seen.len(), seen[0], seen.as_ptr()), (3, Seen::Travel(round), place));
    }
}

#[test]
fn numbers_and_sentences_of_refusals_are_each_others() {
    for refusal in Refusal::ALL {
        assert_eq!(Refusal::of_number(refusal.number()), Some(refusal));
        assert!(refusal.to_string().ends_with(&format!(" (refusal {})", refusal.number())));
    }
    let numbers: Vec<u8> = Refusal::ALL.map(Refusal::number).to_vec();
    assert_eq!(numbers, [1, 2, 3, 4, 5, 6, 7, 8, 10, 100, 101, 102, 103, 104, 105]);
    assert_eq!(Refusal::of_number(9), None);
}
