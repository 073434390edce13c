//! `reference replay`, `reference explain`, `reference generate SEED CALLS`, `reference console`,
//! `reference serve`, `reference frames SEED COUNT`, `reference bench NAME COUNT`.

use reference::bench;
use reference::console::console;
use reference::explain::Explain;
use reference::frames::serve;
use reference::generate::lists::frames;
use reference::generate::script;
use reference::replay::Replay;
use std::io::{self, BufRead, BufReader, BufWriter, Read, Write};
use std::process::ExitCode;

fn main() -> ExitCode {
    let arguments: Vec<String> =
        std::env::args_os().skip(1).map(|word| word.to_string_lossy().into_owned()).collect();
    let words: Vec<&str> = arguments.iter().map(String::as_str).collect();
    match words.as_slice() {
        ["replay"] => replay(),
        ["explain"] => explain(),
        ["generate", seed, calls] => generate(seed, calls),
        ["console"] => {
            console(io::stdin().lock(), io::stdout().lock());
            ExitCode::SUCCESS
        }
        ["serve"] => {
            serve(BufReader::new(io::stdin().lock()), io::stdout().lock());
            ExitCode::SUCCESS
        }
        ["frames", seed, count] => random_frames(seed, count),
        ["bench", name, count] => benchmark(name, count),
        _ => usage(),
    }
}

fn usage() -> ExitCode {
    eprintln!(
        "usage: reference replay | reference explain | reference generate SEED CALLS | \
         reference console | reference serve | reference frames SEED COUNT | \
         reference bench NAME COUNT"
    );
    ExitCode::from(2)
}

/// Script from standard input, observations to standard output, a complaint to standard error.
fn replay() -> ExitCode {
    let mut replay = Replay::default();
    script_lines(BufWriter::new(io::stdout().lock()), |line| replay.line(line))
}

/// Script from standard input, reasons to standard output, each line at once; complaints as there.
fn explain() -> ExitCode {
    let mut explain = Explain::default();
    script_lines(io::stdout().lock(), |line| explain.line(line))
}

fn script_lines(
    mut output: impl Write,
    call: impl FnMut(&str) -> Result<String, String>,
) -> ExitCode {
    let result = each_line(BufReader::new(io::stdin().lock()), &mut output, call);
    let result = output.flush().map_err(|error| error.to_string()).and(result);
    match result {
        Ok(()) => ExitCode::SUCCESS,
        Err(complaint) => {
            eprintln!("{complaint}");
            ExitCode::from(2)
        }
    }
}

/// What was seen is handed over before more is read, so that who gives a call at a time gets its
/// line.
fn each_line(
    mut input: BufReader<impl Read>,
    output: &mut impl Write,
    mut call: impl FnMut(&str) -> Result<String, String>,
) -> Result<(), String> {
    let mut line = Vec::new();
    loop {
        if input.buffer().is_empty() {
            output.flush().map_err(|error| error.to_string())?;
        }
        line.clear();
        if input.read_until(b'\n', &mut line).map_err(|error| error.to_string())? == 0 {
            return Ok(());
        }
        let text = line.strip_suffix(b"\n").unwrap_or(&line);
        let said = call(&String::from_utf8_lossy(text))?;
        output.write_all(said.as_bytes()).map_err(|error| error.to_string())?;
    }
}

fn generate(seed: &str, calls: &str) -> ExitCode {
    let (Ok(seed), Ok(calls)) = (seed.parse(), calls.parse()) else { return usage() };
    written(script(seed, calls).as_bytes())
}

fn random_frames(seed: &str, count: &str) -> ExitCode {
    let (Ok(seed), Ok(count)) = (seed.parse(), count.parse()) else { return usage() };
    written(&frames(seed, count))
}

fn written(bytes: &[u8]) -> ExitCode {
    match io::stdout().write_all(bytes) {
        Ok(()) => ExitCode::SUCCESS,
        Err(_) => ExitCode::from(2),
    }
}

/// The sum of a benchmark, to standard output.
fn benchmark(name: &str, count: &str) -> ExitCode {
    let Some(sum) = count.parse().ok().and_then(|count| bench::bench(name, count)) else {
        return usage();
    };
    println!("{sum}");
    ExitCode::SUCCESS
}
