//! `reference explain`: a script of calls, and a line for each string, each wait and each record.

use reference::explain::Explain;
use reference::generate::script;
use reference::replay::Replay;

/// A call, or a string behind `s `, and the line that it gives without its line feed; none for the
/// empty word.
fn explained(script: &[(&str, &str)]) {
    let mut explain = Explain::default();
    for (line, said) in script {
        let call = line.strip_prefix("s ").map_or(line.to_string(), call);
        let expected = if said.is_empty() { String::new() } else { format!("{said}\n") };
        assert_eq!(explain.line(&call), Ok(expected), "{line}");
    }
}

/// The call of a string without its 13.
fn call(string: &str) -> String {
    let hex: String = string.bytes().map(|byte| format!("{byte:02x}")).collect();
    format!("S {hex}0d 64 0")
}

#[test]
fn strings_waits_and_records_have_a_line_and_other_calls_have_none() {
    explained(&[
        ("F 0", ""),
        ("# a comment", ""),
        ("s 00QA", "00QA,+0\\x0d "),
        ("s 00PS", "00N\\x0d PS takes 1 field, BBB, and the string has none"),
        ("s 01QA", "- the string is for address 01, and this drive has 00"),
        ("s 00WN,100,65,3000,101", "00Y\\x0d "),
        ("s 00WN,101,01,05,20,+2,x1,102", "00Y\\x0d "),
        ("s 00WN,102,00,102", "00Y\\x0d "),
        ("s 00PS,100", "00Y\\x0d "),
        ("W 1", "spent cell 100 is under way (delay, 3000 ms left)"),
        ("W 2999", "spent cell 100 is under way (delay, 1 ms left)"),
        ("W 5", "moving a run is under way at cell 101"),
        ("M", ""),
        ("V", "0,1,2,0,0,+0,0,0,+0,0,0,0,+0,0,101,2,+2,0,0 "),
        ("s 00QA", "- the drive is busy with a run at cell 101, and hears only EE and ES"),
        ("P", ""),
        ("W 1", "moving a run is under way at cell 101"),
        ("P", ""),
        ("W 7", "spent cell 102 is taken next"),
        ("s 00EE", "00Y\\x0d "),
        ("W 1", "idle "),
    ]);
}

#[test]
fn refused_calls_are_told() {
    explained(&[
        ("F 0", ""),
        ("W 0", "- refused by 8: a wait has a budget of 1 to 1000000"),
        ("W 1000001", "- refused by 8: a wait has a budget of 1 to 1000000"),
        ("S 303051410d 63 0", "- refused by 3: the answer buffer has under 64 bytes"),
        ("K in 4", ""),
        ("S 303051410d 64 0", "- refused by 2: the drive is unsound"),
        ("W 5", "- refused by 2: the drive is unsound"),
    ]);
}

#[test]
fn a_malformed_line_is_complained_of_as_replay_does() {
    let mut explain = Explain::default();
    assert_eq!(explain.line("M"), Err("line 1: the first call is not an F".to_string()));
    let (mut explain, mut replay) = (Explain::default(), Replay::default());
    for line in ["F 0", "# comment"] {
        explain.line(line).and(replay.line(line)).expect("a well-formed line");
    }
    for line in ["S 3 64 0", "W", "W x", "Z", "K cell", "S 303051410d 64 0 0"] {
        assert_eq!(explain.line(line).unwrap_err(), replay.line(line).unwrap_err(), "{line}");
    }
}

/// What replay writes and what explain writes of a script, line by line.
fn compare(script: &str, mut judge: impl FnMut(&str, &[&str], &str)) {
    let (mut replay, mut explain) = (Replay::default(), Explain::default());
    for line in script.lines() {
        let observations = replay.line(line).expect("a well-formed line");
        let said = explain.line(line).expect("a well-formed line");
        judge(line, &observations.split(' ').collect::<Vec<_>>(), &said);
    }
}

// The first word is replay's own, and there is a sentence exactly with N, with no answer and with a
// wait that does not end idle.
#[test]
fn generated_scripts_are_told_as_replay_sees_them() {
    for seed in 0..300 {
        compare(&script(seed, 300), |line, seen, said| match &line[..1] {
            "S" => {
                let (word, sentence) = said.trim_end_matches('\n').split_once(' ').unwrap();
                assert_eq!(word, seen[1], "{line}");
                let bare = word == "-" || word.ends_with("N\\x0d") && word.len() == 7;
                assert_eq!(sentence.is_empty(), !bare, "{line}: {said}");
            }
            "W" => {
                let (word, sentence) = said.trim_end_matches('\n').split_once(' ').unwrap();
                assert_eq!(word, seen[3], "{line}");
                assert_eq!(sentence.is_empty(), word == "idle", "{line}: {said}");
            }
            "V" => assert_eq!(said, format!("{} \n", seen[1])),
            _ => assert_eq!(said, "", "{line}"),
        });
    }
}
