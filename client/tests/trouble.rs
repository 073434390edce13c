//! Engines that end, that are none, and that answer what no engine answers.

mod common;

use common::{engine, reference};
use cuminhamper::{Engine, Error, List, Refusal};
use std::ffi::OsString;
use std::io::{ErrorKind, Read, Write};
use std::os::unix::net::UnixStream;
use std::path::Path;
use std::process::Command;
use std::thread;
use std::time::{Duration, Instant};

/// An engine whose peer answers to the version as it should, and to each further request with the
/// next of these bytes; then the peer ends.
fn answering(answers: Vec<Vec<u8>>) -> Engine {
    let (ours, mut theirs) = UnixStream::pair().unwrap();
    thread::spawn(move || {
        for answer in [vec![2, 0, 0, 0, 0, 1]].into_iter().chain(answers) {
            let mut head = [0; 4];
            theirs.read_exact(&mut head).unwrap();
            let mut request = vec![0; u32::from_le_bytes(head) as usize];
            theirs.read_exact(&mut request).unwrap();
            theirs.write_all(&answer).unwrap();
        }
    });
    Engine::connected(ours).unwrap()
}

fn frame(bytes: &[u8]) -> Vec<u8> {
    [&(bytes.len() as u32).to_le_bytes(), bytes].concat()
}

fn is_protocol<T>(result: Result<T, Error>) -> bool {
    matches!(result, Err(Error::Protocol(_)))
}

fn kind<T>(result: Result<T, Error>) -> ErrorKind {
    match result {
        Err(Error::Io(error)) => error.kind(),
        Err(error) => panic!("{error}"),
        Ok(_) => panic!("no error"),
    }
}

type Call = fn(&mut Engine) -> Result<(), Error>;

#[test]
fn an_answer_that_is_none_is_found_out_and_the_engine_is_lost() {
    let string: Call = |engine| engine.string(b"00QA\r").map(|_| ());
    let millisecond: Call = |engine| engine.millisecond();
    let wait: Call = |engine| engine.wait(5).map(|_| ());
    let order: Call = |engine| engine.order().map(|_| ());
    let travel: Call = |engine| engine.travel(5).map(|_| ());
    let cases: &[(Call, &[u8])] = &[
        (|engine| engine.version().map(|_| ()), &[0]),
        (|engine| engine.version().map(|_| ()), &[0, 1, 1]),
        (|engine| engine.fresh(1), &[0, 0]),
        (|engine| engine.fresh(1), &[2]),
        (|engine| engine.fresh(1), &[1, 0]),
        (|engine| engine.load(b""), &[0, 0]),
        (|engine| engine.load(b""), &[9]),
        (|engine| engine.image().map(|_| ()), &[10]),
        (string, &[0, 0, 65]),
        (string, &[0, 0, 2, b'Y']),
        (string, &[0, 0, 1, b'Y', 0]),
        (string, &[0, 3, 1, b'Y']),
        (string, &[0, 4, 0]),
        (string, &[0, 0]),
        (|engine| engine.inputs(0), &[0, 5]),
        (millisecond, &[0]),
        (millisecond, &[0, 0, 0]),
        (millisecond, &[0, 2]),
        (millisecond, &[103]),
        (|engine| engine.step(), &[0, 6]),
        (|engine| engine.halted(), &[0, 5]),
        (wait, &[0, 0, 0, 0, 0, 0, 0]),
        (wait, &[0, 0, 4, 0, 0, 0, 0]),
        (wait, &[0, 8, 1, 0, 0, 0, 0]),
        (wait, &[0, 8, 0, 1, 0, 0, 0]),
        (order, &[0, 0, 3, 1, 0, 0, 0, 0, 0, 0, 0, 0, 0, 0, 0, 0, 0, 0]),
        (order, &[0, 0, 0, 1, 4, 0, 0, 0, 0, 0, 0, 0, 0, 0, 0, 0, 0, 0]),
        (order, &[0, 0, 1, 1, 0, 0, 1, 0, 0, 0, 0, 0, 0, 0, 0, 0, 0, 0]),
        (order, &[0, 0, 0, 4, 0, 0, 0, 0, 0, 0, 0, 0, 0, 0, 0, 0, 0, 0]),
        (order, &[0, 0, 0, 1, 8, 0, 0, 0, 0, 0, 0, 0, 0, 0, 0, 0, 0, 0]),
        (order, &[0, 0, 0, 1, 0, 0, 0, 0, 0, 0, 0, 0, 0, 0, 0, 64, 0, 0]),
        (travel, &[0, 5, 0, 0, 0, 0]),
        (travel, &[0, 0, 0, 0, 0]),
    ];
    for (call, answer) in cases {
        let mut engine = answering(vec![frame(answer), frame(&[0, 0])]);
        assert!(is_protocol(call(&mut engine)), "{answer:?} was taken");
        assert!(is_protocol(engine.millisecond()), "the engine is lost after {answer:?}");
    }
}

#[test]
fn frames_that_are_none_are_found_out() {
    for answer in [vec![0, 0, 0, 0], vec![2, 0, 1, 0], [frame(&[0, 0]), vec![7]].concat()] {
        let mut engine = answering(vec![answer.clone()]);
        assert!(is_protocol(engine.millisecond()), "{answer:?} was taken");
    }
    let mut engine = answering(vec![vec![2, 0, 0]]);
    assert_eq!(kind(engine.millisecond()), ErrorKind::UnexpectedEof, "a cut answer");
}

#[test]
fn good_answers_of_the_same_peer_are_taken() {
    let run = [0, 0, 2, 3, 6, 42, 0x88, 0x13, 0, 0, 0xff, 0xff, 0xff, 0xff, 0x11, 0, 0, 0];
    let mut engine = answering(vec![frame(&run), frame(&[0, 5]), frame(&[2])]);
    let shown = engine.order().unwrap();
    let order = shown.order.run().unwrap();
    assert_eq!((order.backward, order.hertz, order.ramp, order.rest), (true, 5_000, 42, -1));
    assert_eq!((shown.order.powered, shown.order.fc, shown.outputs.bits()), (false, true, 0x11));
    assert!(matches!(engine.step(), Err(Error::Refused(Refusal::NoRun))));
    assert!(matches!(engine.perform(&List::new()), Err(Error::Refused(Refusal::Unsound))));
}

#[test]
fn requests_and_answers_take_turns() {
    let mut engine = engine();
    let mut list = List::new();
    list.string(b"00QA\r", 64).unwrap();
    assert!(is_protocol(engine.receive()), "nothing was asked");
    engine.send(&list).unwrap();
    assert!(is_protocol(engine.send(&list)), "the first answer is still owed");
    assert!(is_protocol(engine.millisecond()), "the first answer is still owed");
    assert_eq!(engine.receive().unwrap().len(), 1, "nothing is lost by that");
    engine.millisecond().unwrap();
}

#[test]
fn many_engines_work_at_once() {
    let mut engines: Vec<Engine> = (0..8).map(|_| engine()).collect();
    for (address, engine) in engines.iter_mut().enumerate() {
        engine.fresh(address as u8).unwrap();
    }
    let mut list = List::new();
    list.string(b"03QS,AD\r", 64).unwrap();
    for engine in &mut engines {
        engine.send(&list).unwrap();
    }
    let mut answers = engines.iter_mut().map(|engine| engine.receive().unwrap()[0]);
    let answered =
        |seen| matches!(seen, cuminhamper::Seen::String(Ok(answer)) if !answer.is_empty());
    assert_eq!(answers.position(answered), Some(3));
    assert!(!answers.any(answered));
}

#[test]
fn dropping_ends_the_process_and_waits_for_it() {
    let file = temporary("dropped");
    let script = "\"$0\" serve; sleep 0.2; touch \"$1\"";
    let words = ["-c".into(), script.into(), reference(), file.clone()];
    let mut engine = Engine::spawn("sh", words).unwrap();
    engine.millisecond().unwrap();
    assert!(!Path::new(&file).exists());
    drop(engine);
    std::fs::remove_file(file).expect("the process had not ended");
}

#[test]
fn dropping_with_an_answer_owed_ends_the_engine_too() {
    let began = std::time::Instant::now();
    let mut list = List::new();
    while list.order().is_ok() {}
    let mut engine = engine();
    engine.send(&list).unwrap();
    drop(engine);
    assert!(began.elapsed() < Duration::from_secs(1), "it had to be killed");
}

#[test]
fn what_is_no_engine_is_told_at_the_start() {
    let none = ["serve"; 0];
    let error = Engine::spawn("./no such program", none).err().expect("it cannot start");
    assert!(error.to_string().contains("./no such program cannot be started"), "{error}");
    assert_eq!(kind(Engine::spawn("true", none)), ErrorKind::UnexpectedEof);
    assert!(is_protocol(Engine::spawn("cat", none)), "it sends back what it gets");
    let (ours, mut theirs) = UnixStream::pair().unwrap();
    theirs.write_all(&[2, 0, 0, 0, 0, 2]).unwrap();
    assert!(is_protocol(Engine::connected(ours)), "version 2");
}

#[test]
fn an_engine_that_does_not_answer_is_lost_after_the_time_that_was_set() {
    let (ours, _theirs) = UnixStream::pair().unwrap();
    ours.set_read_timeout(Some(Duration::from_millis(20))).unwrap();
    assert_eq!(kind(Engine::connected(ours)), ErrorKind::TimedOut);

    let mut engine = Engine::spawn(
        "sh",
        ["-c", "head -c 5 >/dev/null; printf '\\2\\0\\0\\0\\0\\1'; exec sleep 9"],
    )
    .unwrap();
    engine.set_timeout(Some(Duration::from_millis(20))).unwrap();
    assert_eq!(kind(engine.millisecond()), ErrorKind::TimedOut);
    assert!(is_protocol(engine.millisecond()), "its answer could come as that of the next request");
    // The process sleeps on: dropping kills it after two seconds.
}

#[test]
fn an_engine_that_was_killed_is_told() {
    let file = temporary("killed");
    let words =
        ["-c".into(), "echo $$ >\"$1\"; exec \"$0\" serve".into(), reference(), file.clone()];
    let mut engine = Engine::spawn("sh", words).unwrap();
    let process = std::fs::read_to_string(&file).unwrap();
    std::fs::remove_file(file).unwrap();
    let killed =
        Command::new("sh").args(["-c", "kill -9 \"$0\"", process.trim()]).status().unwrap();
    assert!(killed.success());
    let error = engine.millisecond().expect_err("it was killed");
    assert_eq!(error.to_string(), "the engine cannot be reached: it has ended");
    assert_eq!(kind(Err::<(), Error>(error)), ErrorKind::UnexpectedEof);
    assert!(is_protocol(engine.millisecond()), "the engine is lost");
}

#[test]
fn an_engine_that_is_given_up_leaves_no_process() {
    let file = temporary("given-up");
    let script = "echo $$ >\"$0\"; head -c 5 >/dev/null; printf '\\2\\0\\0\\0\\0\\1'; exec sleep 9";
    let engine = Engine::spawn("sh", ["-c".into(), script.into(), file.clone()]).unwrap();
    let process = std::fs::read_to_string(&file).unwrap();
    std::fs::remove_file(file).unwrap();
    let began = Instant::now();
    engine.abandon();
    assert!(began.elapsed() < Duration::from_secs(1), "it is not waited for");
    assert!(!Path::new("/proc").join(process.trim()).exists(), "it is killed");
}

/// A file's name for this test alone.
fn temporary(test: &str) -> OsString {
    let name = format!("cuminhamper-{test}-{}", std::process::id());
    std::env::temp_dir().join(name).into_os_string()
}
