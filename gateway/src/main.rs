//! The gateway: drives on one line, with their clock, boards and kept memory. `gateway --help` says
//! what it does.

mod board;
mod clock;
mod drive;
mod files;
mod gateway;
mod keeper;
mod line;
mod log;
mod metrics;
mod options;
mod signals;
mod start;
mod store;
mod sys;
mod trace;

use options::{Asked, Options};
use std::io::Write;
use std::process::exit;
use std::sync::Arc;

const FAILED: i32 = 1;
const WRONG_WORDS: i32 = 2;

fn main() {
    match options::read(std::env::args_os().skip(1), |name| std::env::var_os(name)) {
        Ok(Asked::Help) => {
            // A reader that has seen enough is no trouble.
            let _ = std::io::stdout().write_all(options::HELP.as_bytes());
        }
        Ok(Asked::Run(options)) => exit(run(&options)),
        Err(sentence) => {
            eprintln!("gateway: {sentence}");
            exit(WRONG_WORDS)
        }
    }
}

/// The status. Engines are not waited for: they end with the process.
fn run(options: &Options) -> i32 {
    let signals = match signals::Signals::new() {
        Ok(signals) => signals,
        Err(error) => return fail(format!("signals cannot be taken: {error}")),
    };
    let log = match log::Log::new() {
        Ok(log) => Arc::new(log),
        Err(error) => return fail(format!("a thread cannot be started: {error}")),
    };
    let status = match gateway::Gateway::open(options, signals, log.clone()) {
        Ok(gateway) => gateway.run(),
        Err(sentence) => {
            log.error(sentence);
            FAILED
        }
    };
    log.close();
    status
}

fn fail(sentence: String) -> i32 {
    eprintln!("gateway: {sentence}");
    FAILED
}
