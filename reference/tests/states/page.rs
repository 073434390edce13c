//! The page, put together.

use crate::events::{Event, EE_ON, ES_ON, PX_OFF, PX_ON, ST_ON};
use crate::rows::{rows, with_last_step, Row};
use crate::words::outcome;
use crate::{starts, taken};
use reference::memory::{Drive, Phase};

const HEAD: &str = "\
# Phases and events

What each event makes of a drive in each phase of 01, as the second implementation does it. The page is made by `reference/tests/states.rs`: it makes
drives in each of these states, of every code, direction, multiplier and mark that a row has, gives them the event and writes down what became of them.
Drives of one row that differ fail the test, and so does a page that is old. It is written anew by

    STATES=write cargo test --release --offline --manifest-path reference/Cargo.toml --test states

01's phases: waiting (at a cell not yet taken); delay (65); run (of a 03 its fast part); braking (05 after its stop); slowing (02, 32, 03); emergency
slowing (ramp runs: 01, 31, 02, 32, 03, 05); back (03 at LL). The last five are a run under way. Idle is no phase: there is no present cell.
";

const WORDS: &str = "\
`-` means that nothing changes. `next cell` is DDD, where the drive then waits, or is idle if DDD is 000. `along s`, `against s`: the position moves by
one that way; `along n`: by one as the sign of the rest says. `mark` is the at-speed mark. `record: cell, rest` and `record: cell, 0` have the loop count
too; an older record stays where none is named. The number of a refusal stands after it. Last step is empty where no rest of steps is counted.
";

pub fn page() -> String {
    let board = [
        ("millisecond", column(Event::Millisecond)),
        ("step", column(Event::Step)),
        ("last step (rest 1)", last_steps()),
        ("at-speed", column(Event::AtSpeed)),
        ("halted", column(Event::Halted)),
    ];
    let stops = [
        ("ES, string or input", both(Event::String("ES"), ES_ON)),
        ("EE, string or input", both(Event::String("EE"), EE_ON)),
        ("PX on", column(PX_ON)),
        ("PX off", column(PX_OFF)),
        ("ST on", column(ST_ON)),
        ("PS", column(Event::String("PS,160"))),
        ("QA", column(Event::String("QA"))),
    ];
    [
        HEAD.to_string(),
        WORDS.to_string(),
        section("Milliseconds and the board's reports", "", &states(&board)),
        section("Stops, inputs and strings", STOPS, &states(&stops)),
        section(
            "Taking a cell",
            TAKING,
            &pairs(["waiting at", "a millisecond later"], &taken::lines()),
        ),
        section("Starting an idle drive", STARTING, &pairs(["event", "outcome"], &starts::lines())),
    ]
    .join("\n")
}

const STOPS: &str = "\
The strings ES and EE are answered Y in every state and do what the inputs do. In the word of an input the others stay as they were. QA stands for every
other request; on an idle drive the other commands are carried out too, on a busy one they are silent.

";

const TAKING: &str = "\
01: \"Each millisecond outside a run or delay takes the present cell\". Each line holds for all its codes, at x1 and x4 where it names neither.

";

const STARTING: &str = "\
Cell BBB is that of the PS. S is S0 + 2×S1 + 4×S2 + 8×S3.

";

fn section(title: &str, words: &str, table: &str) -> String {
    format!("## {title}\n\n{words}{table}")
}

/// The outcome of an event in each row; the drives of a row must agree.
fn column(event: Event) -> Vec<String> {
    rows().iter().map(|row| agreed(row, &row.drives, event)).collect()
}

/// Two events that do the same in each row.
fn both(string: Event, input: Event) -> Vec<String> {
    let (string, input) = (column(string), column(input));
    assert_eq!(string, input, "the string and the input differ");
    string
}

fn last_steps() -> Vec<String> {
    let last = |row: &Row| {
        let drives: Vec<Drive> = row.drives.iter().filter_map(with_last_step).collect();
        match drives.is_empty() {
            true => String::new(),
            false => agreed(row, &drives, Event::Step),
        }
    };
    rows().iter().map(last).collect()
}

fn agreed(row: &Row, drives: &[Drive], event: Event) -> String {
    let takes = |drive: &Drive| !drive.idle() && drive.running.phase == Phase::Waiting;
    if event == Event::Millisecond && drives.iter().all(takes) {
        return "taken, below".to_string();
    }
    let outcomes: Vec<String> = drives.iter().map(|drive| outcome(drive, event)).collect();
    assert!(outcomes.iter().all(|outcome| *outcome == outcomes[0]), "{}: {outcomes:?}", row.name);
    outcomes[0].clone()
}

/// A table with the rows of states.
fn states(columns: &[(&str, Vec<String>)]) -> String {
    let heads = ["state"].into_iter().chain(columns.iter().map(|(head, _)| *head));
    let body = rows().into_iter().enumerate().map(|(place, row)| {
        let entries = columns.iter().map(|(_, entries)| entries[place].clone());
        [row.name.to_string()].into_iter().chain(entries).collect::<Vec<_>>()
    });
    table(&heads.collect::<Vec<_>>(), body)
}

fn pairs(heads: [&str; 2], lines: &[(&str, String)]) -> String {
    table(&heads, lines.iter().map(|(name, outcome)| vec![name.to_string(), outcome.clone()]))
}

fn table(heads: &[&str], body: impl Iterator<Item = Vec<String>>) -> String {
    let head = format!("| {} |\n|{}\n", heads.join(" | "), "---|".repeat(heads.len()));
    body.fold(head, |table, entries| format!("{table}| {} |\n", entries.join(" | ")))
}
