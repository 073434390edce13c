//! The proved engine inside a Rust program: an engine in a thread, a program stored and run to its end.
//!
//!     bin/library
//!     cargo run --offline --manifest-path client/Cargo.toml --features linked --example engine
//!
//! The clock and the pulse board of a real host stand where this one counts.

use cuminhamper::{Engine, Error, List, Seen};

/// Gives a string, byte 13 added, and shows its answer.
fn string(engine: &mut Engine, text: &str) -> Result<(), Error> {
    let answer = engine.string(format!("{text}\r").as_bytes())?;
    println!("{text:28} {}", answer.escape_ascii());
    Ok(())
}

fn main() -> Result<(), Error> {
    let mut engine = Engine::start()?;
    string(&mut engine, "00WN,100,58,O0,1,101")?;
    string(&mut engine, "00WN,101,11,05,+1200,x1,000")?;
    string(&mut engine, "00PS,100")?;

    // A millisecond of the host in one request: the clock, the steps of a board at 500 Hz, one in every second millisecond, and the order after them.
    let mut list = List::new();
    let (mut milliseconds, mut steps) = (0, 0);
    let outputs = loop {
        milliseconds += 1;
        list.clear();
        list.millisecond()?.travel(1 - milliseconds % 2)?.order()?;
        let [_, Seen::Travel(given), Seen::Order(shown)] = engine.perform(&list)?[..] else {
            unreachable!("what is seen is of the words that were sent");
        };
        steps += given;
        if shown.order.run().is_none() && steps > 0 {
            break shown.outputs;
        }
    };
    println!("{steps} steps in {milliseconds} ms, outputs {outputs}");
    string(&mut engine, "00QA")
}
