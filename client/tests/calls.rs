//! The methods, against the second implementation.

mod common;

use common::{engine, Random, PROGRAM};
use cuminhamper::{End, Engine, Error, List, Motion, Refusal, Run, Seen, Waited};

/// The refusal of a call that has to be refused.
fn refused<T: std::fmt::Debug>(result: Result<T, Error>) -> Refusal {
    match result {
        Err(Error::Refused(refusal)) => refusal,
        other => panic!("{other:?} is no refusal"),
    }
}

fn load(engine: &mut Engine) {
    for text in PROGRAM {
        assert_eq!(engine.string(text).unwrap(), b"00Y\r");
    }
}

#[test]
fn a_fresh_drive_has_its_address() {
    let mut engine = engine();
    assert_eq!(engine.version().unwrap(), 1);
    assert_eq!(engine.string(b"00QA\r").unwrap(), b"00QA,+0\r");
    engine.fresh(47).unwrap();
    assert_eq!(engine.string(b"00QA\r").unwrap(), b"", "another's address: silent");
    assert_eq!(engine.string(b"47QA\r").unwrap(), b"47QA,+0\r");
    assert_eq!(refused(engine.fresh(48)), Refusal::Address);
    assert_eq!(engine.string(b"47QS,AD\r").unwrap(), b"47QS,AD,47\r", "a refusal changes nothing");
}

#[test]
fn each_call_has_its_own_refusal_and_the_engine_goes_on() {
    let mut engine = engine();
    assert_eq!(refused(engine.inputs(2_048)), Refusal::InputsWord);
    assert_eq!(refused(engine.step()), Refusal::NoRun);
    assert_eq!(refused(engine.at_speed()), Refusal::Report);
    assert_eq!(refused(engine.halted()), Refusal::Report);
    assert_eq!(refused(engine.wait(0)), Refusal::Budget);
    assert_eq!(refused(engine.wait(1_000_001)), Refusal::Budget);
    assert_eq!(refused(engine.load(b"no image")), Refusal::Image);
    assert_eq!(refused(engine.load(&[0; 16_385])), Refusal::LongFrame);
    assert_eq!(refused(engine.string(&[b'0'; 70_000])), Refusal::LongFrame);
    engine.inputs(2_047 - 1_024).unwrap();
    engine.millisecond().unwrap();
    assert_eq!(engine.string(b"00QI,PX\r").unwrap(), b"00QI,PX,1\r");
}

#[test]
fn a_program_runs_to_its_end() {
    let mut engine = engine();
    load(&mut engine);
    assert_eq!(engine.wait(1_000).unwrap(), Waited { end: End::Moving, given: 1 });
    let run = Run { backward: false, hertz: 500, ramp: 0, rest: 40 };
    assert_eq!(engine.order().unwrap().order.run(), Some(run));
    assert_eq!(engine.travel(100).unwrap(), 40, "the run is over");
    assert_eq!(engine.travel(1).unwrap(), 0, "no run is under way");
    engine.millisecond().unwrap();
    let shown = engine.order().unwrap();
    assert_eq!((shown.order.motion, shown.order.current), (Motion::Stand, 1));
    assert_eq!(shown.outputs.to_string(), "10000000000000");
    assert_eq!((shown.outputs.on("O0"), shown.outputs.on("CU")), (Some(true), Some(false)));
    // The delay's cell, 3 later milliseconds, then the run's.
    assert_eq!(engine.wait(1_000).unwrap(), Waited { end: End::Moving, given: 5 });
    engine.at_speed().unwrap();
    engine.step().unwrap();
    let run = Run { backward: true, hertz: 5_000, ramp: 20, rest: -24 };
    assert_eq!(engine.order().unwrap().order.run(), Some(run));
    assert_eq!(engine.string(b"00EE\r").unwrap(), b"00Y\r");
    assert_eq!(engine.order().unwrap().order.motion, Motion::Slow);
    engine.halted().unwrap();
    assert_eq!(engine.wait(7).unwrap(), Waited { end: End::Idle, given: 0 });
    assert_eq!(engine.string(b"00QA\r").unwrap(), b"00QA,+39\r");
}

#[test]
fn an_image_brings_the_memory_back() {
    let mut engine = engine();
    load(&mut engine);
    let image = engine.image().unwrap();
    engine.fresh(5).unwrap();
    assert_ne!(engine.image().unwrap(), image);
    engine.load(&image).unwrap();
    assert_eq!(engine.string(b"00QM,103\r").unwrap(), b"00QM,103,01,05,20,-25,x1,000\r");
    let whole = engine.image().unwrap();
    assert_eq!(refused(engine.load(&image[1..])), Refusal::Image);
    assert_eq!(engine.image().unwrap(), whole, "a refusal changes nothing");
}

#[test]
fn the_refusal_of_a_word_is_seen_and_the_list_goes_on() {
    let mut engine = engine();
    let mut list = List::new();
    list.step().unwrap().string(b"00QA\r", 63).unwrap();
    list.wait(0).unwrap().string(b"00QA\r", 64).unwrap();
    let seen = engine.perform(&list).unwrap();
    let refusals: Vec<_> = seen.iter().map(Seen::refusal).collect();
    assert_eq!(
        refusals,
        [Some(Refusal::NoRun), Some(Refusal::AnswerBuffer), Some(Refusal::Budget), None]
    );
    let Seen::String(Ok(answer)) = seen[3] else { panic!("{seen:?}") };
    assert_eq!(&*answer, b"00QA,+0\r");
    assert!(engine.perform(&List::new()).unwrap().is_empty());
}

/// What is seen of a word, in the form of `by_method`.
fn text(seen: &Seen) -> String {
    match seen {
        Seen::String(answer) => format!("{:?}", answer.map(|answer| answer.to_vec())),
        Seen::Inputs(done)
        | Seen::Millisecond(done)
        | Seen::Step(done)
        | Seen::AtSpeed(done)
        | Seen::Halted(done) => format!("{done:?}"),
        Seen::Wait(waited) => format!("{waited:?}"),
        Seen::Order(shown) => format!("{:?}", Ok::<_, Refusal>(shown)),
        Seen::Travel(given) => format!("{:?}", Ok::<_, Refusal>(given)),
    }
}

/// Makes the call of a list of one word by its method.
fn by_method(engine: &mut Engine, word: &[u8]) -> String {
    let number = || u32::from_le_bytes(word[1..5].try_into().unwrap());
    match word[0] {
        b'S' => own(engine.string(&word[4..])),
        b'I' => own(engine.inputs(u16::from_le_bytes([word[1], word[2]]))),
        b'M' => own(engine.millisecond()),
        b'P' => own(engine.step()),
        b'A' => own(engine.at_speed()),
        b'H' => own(engine.halted()),
        b'W' => own(engine.wait(number())),
        b'B' => own(engine.order()),
        _ => own(engine.travel(number())),
    }
}

fn own<T: std::fmt::Debug>(result: Result<T, Error>) -> String {
    let result: Result<T, Refusal> = match result {
        Ok(value) => Ok(value),
        Err(Error::Refused(refusal)) => Err(refusal),
        Err(error) => panic!("{error}"),
    };
    format!("{result:?}")
}

#[test]
fn a_list_is_its_calls_made_one_by_one() {
    let (mut lists, mut methods) = (engine(), engine());
    let mut random = Random(18);
    let mut kinds = std::collections::BTreeSet::new();
    for _ in 0..200 {
        let words: Vec<List> = (0..30).map(|_| random.word(64)).collect();
        let whole: Vec<u8> = words.iter().flat_map(List::bytes).copied().collect();
        let seen = lists.perform(&List::parse(&whole).unwrap()).unwrap();
        assert_eq!(seen.len(), words.len());
        for (seen, word) in seen.iter().zip(&words) {
            assert_eq!(text(seen), by_method(&mut methods, word.bytes()), "{word:?}");
            kinds.insert((word.bytes()[0], seen.refusal().is_some()));
        }
    }
    // Every letter was met, and those that can be refused also refused; a string here has room.
    let met: Vec<u8> = kinds.into_iter().map(|(letter, _)| letter).collect();
    assert_eq!(met, b"AABGHHIIMPPSWW");
    assert_eq!(lists.image().unwrap(), methods.image().unwrap());
}
