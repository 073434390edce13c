//! The words of the command line and of the environment, judged before anything is opened.

use crate::sys::{self, Parity};
use std::ffi::OsString;
use std::path::PathBuf;

pub const HELP: &str = include_str!("help.txt");

#[derive(Clone, Debug, PartialEq)]
pub struct Options {
    pub line: LineOption,
    pub addresses: Vec<u8>,
    pub state: PathBuf,
    pub baud: u32,
    pub parity: Parity,
    pub gap: u64,
    pub catch_up: u64,
    pub board: BoardOption,
    pub trace: Option<PathBuf>,
    pub metrics: Option<PathBuf>,
    /// A program and its arguments; none where the linked engine is used.
    pub engine: Option<Vec<String>>,
    pub answer_delay: u64,
}

#[derive(Clone, Debug, PartialEq)]
pub enum LineOption {
    Tty(PathBuf),
    Unix(PathBuf),
    Pty(PathBuf),
}

#[derive(Clone, Debug, PartialEq)]
pub enum BoardOption {
    Simulated,
    Unix(PathBuf),
}

#[derive(Debug, PartialEq)]
pub enum Asked {
    Help,
    Run(Box<Options>),
}

/// The words, without the dashes. In the environment each is in capitals, after GATEWAY_, with _
/// for -.
const WORDS: [&str; 12] = [
    "line",
    "addresses",
    "state",
    "baud",
    "parity",
    "gap",
    "catch-up",
    "board",
    "trace",
    "metrics",
    "engine",
    "answer-delay",
];

const MOST_ADDRESS: u8 = 47;

/// The command line, and where it has no such word the environment.
pub fn read(
    arguments: impl IntoIterator<Item = OsString>,
    environment: impl Fn(&str) -> Option<OsString>,
) -> Result<Asked, String> {
    let mut values: [Option<String>; WORDS.len()] = Default::default();
    let mut arguments = arguments.into_iter();
    while let Some(argument) = arguments.next() {
        let argument = text("a word", argument)?;
        if argument == "--help" || argument == "-h" {
            return Ok(Asked::Help);
        }
        let (place, given) = word(&argument)?;
        let value = match given {
            Some(value) => value,
            None => {
                let next = arguments.next().ok_or_else(|| needs_value(WORDS[place]))?;
                text(&argument, next)?
            }
        };
        if values[place].replace(value).is_some() {
            return Err(format!("--{} stands twice; give it once", WORDS[place]));
        }
    }
    for (place, value) in values.iter_mut().enumerate() {
        let name = format!("GATEWAY_{}", WORDS[place].to_uppercase().replace('-', "_"));
        if let (None, Some(found)) = (&value, environment(&name)) {
            // An empty one is as none, so that a unit can leave it so.
            *value = Some(text(&name, found)?).filter(|found| !found.is_empty());
        }
    }
    judge(values).map(|options| Asked::Run(Box::new(options)))
}

/// The place of a word, and its value where it is written --word=value.
fn word(argument: &str) -> Result<(usize, Option<String>), String> {
    let unknown = || format!("{argument:?} is no word of the gateway; --help lists them");
    let body = argument.strip_prefix("--").ok_or_else(unknown)?;
    let (name, value) = match body.split_once('=') {
        Some((name, value)) => (name, Some(value.to_string())),
        None => (body, None),
    };
    let place = WORDS.iter().position(|known| *known == name).ok_or_else(unknown)?;
    Ok((place, value))
}

fn text(what: &str, value: OsString) -> Result<String, String> {
    value.into_string().map_err(|value| format!("{what} is no UTF-8 text: {value:?}"))
}

fn needs_value(word: &str) -> String {
    format!("--{word} needs a value after it; --help says which")
}

fn judge(mut values: [Option<String>; WORDS.len()]) -> Result<Options, String> {
    let mut value = |word: &str| {
        let place = WORDS.iter().position(|known| *known == word)?;
        values[place].take()
    };
    Ok(Options {
        line: line_of(&wanted("line", value("line"))?)?,
        addresses: addresses_of(&wanted("addresses", value("addresses"))?)?,
        state: path_of("state", wanted("state", value("state"))?)?,
        baud: baud_of(value("baud"))?,
        parity: parity_of(value("parity"))?,
        gap: number_of("gap", value("gap"), 200, 1, 60_000)?,
        catch_up: number_of("catch-up", value("catch-up"), 100, 1, 60_000)?,
        board: board_of(value("board"))?,
        trace: optional_path("trace", value("trace"))?,
        metrics: optional_path("metrics", value("metrics"))?,
        engine: engine_of(value("engine"))?,
        answer_delay: number_of("answer-delay", value("answer-delay"), 0, 0, 10_000)?,
    })
}

fn wanted(word: &str, value: Option<String>) -> Result<String, String> {
    value.ok_or_else(|| format!("--{word} is missing; --help says what it takes"))
}

fn path_of(word: &str, value: String) -> Result<PathBuf, String> {
    if value.is_empty() || value.contains('\0') {
        return Err(format!("--{word} {value:?} is no path"));
    }
    Ok(PathBuf::from(value))
}

fn optional_path(word: &str, value: Option<String>) -> Result<Option<PathBuf>, String> {
    value.map(|value| path_of(word, value)).transpose()
}

fn line_of(value: &str) -> Result<LineOption, String> {
    let wrong = || format!("--line {value:?} is no line; give tty:PATH, unix:PATH or pty:LINK");
    let (kind, path) = value.split_once(':').ok_or_else(wrong)?;
    let path = path_of("line", path.to_string()).map_err(|_| wrong())?;
    match kind {
        "tty" => Ok(LineOption::Tty(path)),
        "unix" => Ok(LineOption::Unix(path)),
        "pty" => Ok(LineOption::Pty(path)),
        _ => Err(wrong()),
    }
}

fn addresses_of(value: &str) -> Result<Vec<u8>, String> {
    let mut addresses = Vec::new();
    for part in value.split(',') {
        let address = decimal(part)
            .and_then(|number| u8::try_from(number).ok())
            .filter(|address| *address <= MOST_ADDRESS)
            .ok_or_else(|| {
                format!("--addresses: {part:?} is no address; give 0 to 47, with commas between")
            })?;
        if addresses.contains(&address) {
            return Err(format!("--addresses: {address} stands twice; each drive has its own"));
        }
        addresses.push(address);
    }
    Ok(addresses)
}

/// A number of digits only, so that no sign or space passes.
fn decimal(text: &str) -> Option<u64> {
    let plain = (1..=18).contains(&text.len()) && text.bytes().all(|byte| byte.is_ascii_digit());
    plain.then(|| text.parse().ok()).flatten()
}

fn number_of(
    word: &str,
    value: Option<String>,
    usual: u64,
    least: u64,
    most: u64,
) -> Result<u64, String> {
    let Some(value) = value else { return Ok(usual) };
    decimal(&value)
        .filter(|number| (least..=most).contains(number))
        .ok_or_else(|| format!("--{word} {value:?} is out of range; give {least} to {most} (ms)"))
}

fn baud_of(value: Option<String>) -> Result<u32, String> {
    let Some(value) = value else { return Ok(9600) };
    let known = |number: &u64| sys::bauds().any(|baud| u64::from(baud) == *number);
    decimal(&value).filter(known).map(|number| number as u32).ok_or_else(|| {
        let all: Vec<String> = sys::bauds().map(|baud| baud.to_string()).collect();
        format!("--baud {value:?} is no speed of a line; give one of {}", all.join(", "))
    })
}

fn parity_of(value: Option<String>) -> Result<Parity, String> {
    match value.as_deref() {
        None | Some("none") => Ok(Parity::None),
        Some("even") => Ok(Parity::Even),
        Some("odd") => Ok(Parity::Odd),
        Some(value) => Err(format!("--parity {value:?} is none; give none, even or odd")),
    }
}

fn board_of(value: Option<String>) -> Result<BoardOption, String> {
    let Some(value) = value else { return Ok(BoardOption::Simulated) };
    let wrong = || format!("--board {value:?} is no board; give sim or unix:DIR");
    if value == "sim" {
        return Ok(BoardOption::Simulated);
    }
    let path = value.strip_prefix("unix:").ok_or_else(wrong)?;
    path_of("board", path.to_string()).map(BoardOption::Unix).map_err(|_| wrong())
}

fn engine_of(value: Option<String>) -> Result<Option<Vec<String>>, String> {
    let words: Option<Vec<String>> =
        value.map(|value| value.split_whitespace().map(str::to_string).collect());
    match words {
        Some(words) if words.is_empty() => Err("--engine names no program".to_string()),
        None if !cfg!(feature = "linked") => {
            Err("--engine is missing: this gateway was built without the linked engine, so name \
                 a program that serves frames, as \"reference serve\""
                .to_string())
        }
        words => Ok(words),
    }
}

#[cfg(test)]
mod tests {
    use super::*;

    const LEAST: [&str; 8] =
        ["--line", "unix:/l", "--addresses", "0,7,47", "--state", "/s", "--engine", "e serve"];

    fn read_words(words: &[&str], environment: &[(&str, &str)]) -> Result<Asked, String> {
        let found = |name: &str| {
            environment.iter().find(|(known, _)| *known == name).map(|(_, value)| value.into())
        };
        read(words.iter().map(OsString::from), found)
    }

    fn options(words: &[&str], environment: &[(&str, &str)]) -> Options {
        match read_words(words, environment) {
            Ok(Asked::Run(options)) => *options,
            other => panic!("{other:?}"),
        }
    }

    /// The sentence for the least words with some more.
    fn refused(more: &[&str]) -> String {
        read_words(&[&LEAST[..], more].concat(), &[]).unwrap_err()
    }

    #[test]
    fn the_least_words() {
        let options = options(&LEAST, &[]);
        assert_eq!(options.line, LineOption::Unix("/l".into()));
        assert_eq!(options.addresses, [0, 7, 47]);
        assert_eq!((options.baud, options.parity), (9600, Parity::None));
        assert_eq!((options.gap, options.catch_up, options.answer_delay), (200, 100, 0));
        assert_eq!(options.board, BoardOption::Simulated);
        assert_eq!(options.engine, Some(vec!["e".to_string(), "serve".to_string()]));
        assert_eq!((options.trace, options.metrics), (None, None));
    }

    #[test]
    fn every_word_from_the_command_line() {
        let more = [
            "--baud=19200",
            "--parity",
            "odd",
            "--gap",
            "50",
            "--catch-up=20",
            "--board",
            "unix:/b",
            "--trace",
            "/t",
            "--metrics=/m",
            "--answer-delay",
            "12",
        ];
        let options = options(&[&LEAST[..], &more].concat(), &[]);
        assert_eq!((options.baud, options.parity), (19_200, Parity::Odd));
        assert_eq!((options.gap, options.catch_up, options.answer_delay), (50, 20, 12));
        assert_eq!(options.board, BoardOption::Unix("/b".into()));
        assert_eq!((options.trace, options.metrics), (Some("/t".into()), Some("/m".into())));
    }

    #[test]
    fn the_command_line_wins_over_the_environment() {
        let environment = [
            ("GATEWAY_LINE", "tty:/d"),
            ("GATEWAY_GAP", "70"),
            ("GATEWAY_CATCH_UP", "30"),
            ("GATEWAY_TRACE", ""),
        ];
        let options = options(&[&LEAST[..], &["--gap", "60"]].concat(), &environment);
        assert_eq!(options.line, LineOption::Unix("/l".into()));
        assert_eq!((options.gap, options.catch_up), (60, 30));
        assert_eq!(options.trace, None);
        assert!(read_words(&LEAST, &[("GATEWAY_BAUD", "1")]).unwrap_err().contains("--baud"));
    }

    #[test]
    fn help_wins() {
        assert_eq!(read_words(&["--help"], &[]), Ok(Asked::Help));
        assert_eq!(read_words(&["--gap", "0", "--help"], &[]), Ok(Asked::Help));
    }

    #[test]
    fn words_that_are_refused() {
        for (more, part) in [
            (&["--gap", "0"][..], "--gap"),
            (&["--gap", "+5"], "--gap"),
            (&["--gap", "60001"], "1 to 60000"),
            (&["--catch-up", "x"], "--catch-up"),
            (&["--answer-delay", "10001"], "0 to 10000"),
            (&["--baud", "9601"], "9600"),
            (&["--parity", "mark"], "none, even or odd"),
            (&["--board", "unix:"], "sim or unix:DIR"),
            (&["--board", "real"], "sim or unix:DIR"),
            (&["--trace", ""], "--trace"),
            (&["--line", "unix:/l"], "twice"),
            (&["--gap"], "needs a value"),
            (&["--bauds", "9600"], "--help lists them"),
            (&["9600"], "--help lists them"),
        ] {
            let sentence = refused(more);
            assert!(sentence.contains(part), "{more:?}: {sentence}");
        }
    }

    #[test]
    fn addresses_and_lines_that_are_refused() {
        for addresses in ["48", "0,0", "", "1,", "1, 2", "-1", "x", "00000000000000000000"] {
            assert!(addresses_of(addresses).is_err(), "{addresses}");
        }
        assert_eq!(addresses_of("07,1"), Ok(vec![7, 1]));
        for line in ["", "unix", "unix:", "com:1", ":/l"] {
            assert!(line_of(line).is_err(), "{line}");
        }
        assert_eq!(line_of("pty:/a:b"), Ok(LineOption::Pty("/a:b".into())));
    }

    #[test]
    fn what_is_missing_is_named() {
        for word in ["line", "addresses", "state"] {
            let words: Vec<&str> = LEAST
                .chunks(2)
                .filter(|pair| pair[0] != format!("--{word}"))
                .flatten()
                .copied()
                .collect();
            assert!(read_words(&words, &[]).unwrap_err().contains(&format!("--{word} is missing")));
        }
    }

    #[test]
    fn every_word_has_its_help() {
        for word in WORDS {
            assert!(HELP.contains(&format!("\n  --{word} ")), "{word}");
        }
    }
}
