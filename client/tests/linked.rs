//! The linked library, beside the second implementation.
#![cfg(feature = "linked")]

mod common;

use common::{engine, Random};
use cuminhamper::{Engine, List, Seen};

#[test]
fn the_linked_engine_answers_as_the_second_implementation() {
    let (mut linked, mut second) = (Engine::start().unwrap(), engine());
    let mut random = Random(7);
    for round in 0..300 {
        let mut list = Vec::new();
        for _ in 0..40 {
            let room = if random.below(8) == 0 { 63 } else { 64 };
            list.extend_from_slice(random.word(room).bytes());
        }
        let list = List::parse(&list).unwrap();
        assert_eq!(linked.perform(&list).unwrap(), second.perform(&list).unwrap(), "{list:?}");
        if round % 10 == 0 {
            let image = linked.image().unwrap();
            assert_eq!(image, second.image().unwrap());
            linked.load(&image).unwrap();
            second.load(&image).unwrap();
        }
    }
}

#[test]
fn forty_eight_engines_share_nothing() {
    let mut engines: Vec<Engine> = (0..48).map(|_| Engine::start().unwrap()).collect();
    for (address, engine) in engines.iter_mut().enumerate() {
        engine.fresh(address as u8).unwrap();
        engine.string(format!("{address:02}SA,{address}\r").as_bytes()).unwrap();
    }
    for (address, engine) in engines.iter_mut().enumerate() {
        let mut list = List::new();
        list.string(format!("{address:02}QA\r").as_bytes(), 64).unwrap();
        engine.send(&list).unwrap();
    }
    for (address, engine) in engines.iter_mut().enumerate() {
        let Seen::String(Ok(answer)) = engine.receive().unwrap()[0] else { panic!("refused") };
        assert_eq!(*answer, *format!("{address:02}QA,+{address}\r").as_bytes());
    }
}
