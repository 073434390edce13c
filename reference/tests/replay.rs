//! Scripts of calls: the examples of the format, K lines, and malformed lines.

use reference::replay::replay;
use std::io::Write;
use std::process::{Command, Stdio};

/// An S line for a text with byte 13 and a buffer of 64 zeros.
fn s(text: &str) -> String {
    let hex: String = text.bytes().map(|byte| format!("{byte:02x}")).collect();
    format!("S {hex}0d 64 0")
}

/// What is seen of some calls, parted by semicolons, on a fresh drive of address 00.
fn seen(calls: &str) -> Vec<String> {
    let script = format!("F 0\n{}\n", calls.replace("; ", "\n"));
    let observations = replay(&script).unwrap_or_else(|complaint| panic!("{complaint}"));
    observations.lines().skip(1).map(str::to_string).collect()
}

/// The answer to the last of some K lines, given without the K and parted by semicolons.
fn written(fields: &str) -> String {
    let seen = seen(&format!("K {}", fields.replace("; ", "; K ")));
    let words: Vec<&str> = seen.last().map(|line| line.split(' ').collect()).unwrap_or_default();
    assert_eq!(words.len(), 7, "{fields}");
    assert_eq!((words[0], &words[2..5]), ("-", &["-"; 3][..]), "{fields}");
    let order = if words[5] == "!2" { "unsound" } else { "sound" };
    if words[1] != "unrepresentable" {
        assert_eq!(words[1], order, "{fields}");
    }
    words[1].to_string()
}

/// Each line of `cases` is some K lines, parted by semicolons, the last of which gets the answer.
fn check(answer: &str, cases: &str) {
    for fields in cases.lines().map(str::trim).filter(|fields| !fields.is_empty()) {
        assert_eq!(written(fields), answer, "{fields}");
    }
}

#[test]
fn example_of_the_format() {
    assert_eq!(
        replay("F 0\nS 303051410d 64 0\n").unwrap(),
        "- - - - - stand:1,0,0 00000000000000\n\
         - 00QA,+0\\x0d 1565 - - stand:1,0,0 00000000000000\n"
    );
}

#[test]
fn every_call_has_its_observations() {
    let (store, start) = (s("00WN,100,31,030,20,-002,X4,000"), s("00PS,100"));
    let calls = format!(
        "# comment; F 48; R 2200; R 0; I 2048; P; A; H; B; W 0; {store}; {start}; W 1000000; A; P; \
         S - 64 1; S 30 63 7; P; W 5; M; Q"
    );
    let stand = "stand:1,0,0 00000000000000";
    let run = |left| format!("run:-,12000,20,{left},1,0,0 00000000000000");
    let expected = [
        format!("1 - - - - {stand}"),
        format!("- 2181 - - - {stand}"),
        format!("7 - - - - {stand}"),
        format!("4 - - - - {stand}"),
        format!("5 - - - - {stand}"),
        format!("6 - - - - {stand}"),
        format!("6 - - - - {stand}"),
        format!("- - - - - {stand}"),
        format!("8 - - - - {stand}"),
        format!("- 00Y\\x0d 463 - - {stand}"),
        format!("- 00Y\\x0d 463 - - {stand}"),
        format!("- - - moving 1 {}", run(-8)),
        format!("- - - - - {}", run(-8)),
        format!("- - - - - {}", run(-7)),
        format!("- - 2080 - - {}", run(-7)),
        format!("3 - 14112 - - {}", run(-7)),
        format!("- - - - - {}", run(-6)),
        format!("- - - moving 0 {}", run(-6)),
        format!("- - - - - {}", run(-6)),
        format!("- 0:0 - - - {}", run(-6)),
    ];
    assert_eq!(seen(&calls), expected);
}

#[test]
fn images_have_their_observations() {
    let store = s("00WN,100,11,05,-1,x4,000");
    let loaded = format!("050300000145{}", "0000".repeat(127));
    let calls = format!("{store}; O 266 0; O 264 0; O 263 1; L -; K out O1 1; L {loaded}; O 260 0");
    let stand = "stand:1,0,0 00000000000000";
    let expected = [
        format!("- 00Y\\x0d 463 - - {stand}"),
        format!("- 264 126 - - {stand}"),
        format!("- 264 126 - - {stand}"),
        format!("9 - 34716 - - {stand}"),
        format!("10 - - - - {stand}"),
        "- sound - - - stand:1,0,0 01000000000000".to_string(),
        "- - - - - stand:3,0,0 00000000000000".to_string(),
        "- 260 430 - - stand:3,0,0 00000000000000".to_string(),
    ];
    assert_eq!(seen(&calls), expected);
}

#[test]
fn totals_have_their_observations() {
    let (run, delay) = (s("00WN,100,11,05,+5,x4,101"), s("00WN,101,65,7,102"));
    let (back, start) = (s("00WN,102,21,2200,-2,x1,000"), s("00PS,100"));
    let calls = format!(
        "{run}; {delay}; {back}; T 100; T 102; T 230; T 0; T 99; T 231; T 255; T 300; T 356; \
         T 4294967295; T 0000000000100; K c102 0 100; T 100; K c102 62 100 0; T 100; {start}; M; T 101"
    );
    let stand = "stand:1,0,0 00000000000000";
    let expected = [
        format!("- +18,7 - - - {stand}"),
        format!("- -2,0 - - - {stand}"),
        format!("- +0,0 - - - {stand}"),
        format!("11 - - - - {stand}"),
        format!("11 - - - - {stand}"),
        format!("11 - - - - {stand}"),
        format!("11 - - - - {stand}"),
        format!("11 - - - - {stand}"),
        format!("11 - - - - {stand}"),
        format!("11 - - - - {stand}"),
        format!("- +18,7 - - - {stand}"),
        format!("- sound - - - {stand}"),
        format!("12 - - - - {stand}"),
        format!("- sound - - - {stand}"),
        format!("13 - - - - {stand}"),
        format!("- 00Y\\x0d 463 - - {stand}"),
        "- - - - - run:+,2000,0,+20,1,0,0 00000000000000".to_string(),
        "13 - - - - run:+,2000,0,+20,1,0,0 00000000000000".to_string(),
    ];
    assert_eq!(seen(&calls)[3..], expected);
}

/// The answers to the U lines among some calls.
fn maps(calls: &str) -> Vec<String> {
    let lines = calls.split("; ").zip(seen(calls));
    let maps = lines.filter(|(call, _)| *call == "U").map(|(_, line)| line);
    maps.map(|line| line.split(' ').nth(1).unwrap_or_default().to_string()).collect()
}

#[test]
fn maps_have_their_observations() {
    let (store, last) = (s("00WN,100,62,116,230"), s("00WN,230,00,117"));
    let calls = format!("U; {store}; U; {last}; U; K ad 48; U; K ad 0; U; F 48; U; F 7; U");
    let (stand, none) = ("stand:1,0,0 00000000000000", "ffff00000000000000000000000000000");
    let expected = [
        format!("- {none} - - - {stand}"),
        format!("- 00Y\\x0d 463 - - {stand}"),
        format!("- ffff80000000000000000000000000002 - - - {stand}"),
        format!("- 00Y\\x0d 463 - - {stand}"),
        format!("- ffffc0000000000000000000000000002 - - - {stand}"),
        "- unsound - - - !2 00000000000000".to_string(),
        "2 - - - - !2 00000000000000".to_string(),
        format!("- sound - - - {stand}"),
        format!("- ffffc0000000000000000000000000002 - - - {stand}"),
        format!("1 - - - - {stand}"),
        format!("- ffffc0000000000000000000000000002 - - - {stand}"),
        format!("- - - - - {stand}"),
        format!("- {none} - - - {stand}"),
    ];
    assert_eq!(seen(&calls), expected);
}

// Each cell has its bit, the first the highest of its digit; the last bit is 0.
#[test]
fn a_map_shows_cells_100_to_230_and_a_0() {
    for cell in 116..=230_u32 {
        let map = &maps(&format!("{}; U", s(&format!("00WN,100,00,{cell}"))))[0];
        let place = (cell - 100) as usize;
        let digit = 8 >> (place % 4);
        let expected = format!("ffff{:0>1$x}{2}", digit, place / 4 - 3, "0".repeat(32 - place / 4));
        assert_eq!(*map, expected, "{cell}");
    }
    let up = (100..230).map(|cell| s(&format!("00WN,{cell},00,{}", cell + 1)));
    let calls = up.collect::<Vec<_>>().join("; ");
    assert_eq!(maps(&format!("{calls}; U"))[0], format!("{}e", "f".repeat(32)));
}

#[test]
fn a_map_is_counted_for_a_drive_that_is_loaded_or_written_raw() {
    // Images in which cell 100 leads to 116, 230 and 000.
    let image = |next: &str| format!("L 000102000000{next}{}", "0000".repeat(127));
    let (near, far, nowhere) = (image("74"), image("e601"), image("00"));
    let calls = format!(
        "{near}; U; {far}; U; L 00; U; {nowhere}; U; K c100 0 120; U; K c120 62 121 230; U; \
         K c120 0 256; U; K c100 0 99; U; K c100 0 116; U; F 1; U"
    );
    let expected = [
        "ffff80000000000000000000000000000",
        "ffff00000000000000000000000000002",
        "ffff00000000000000000000000000002",
        "ffff00000000000000000000000000000",
        "ffff08000000000000000000000000000",
        "ffff0c000000000000000000000000002",
        "ffff0c000000000000000000000000002",
        "-",
        "ffff80000000000000000000000000000",
        "ffff00000000000000000000000000000",
    ];
    assert_eq!(maps(&calls), expected);
}

#[test]
fn records_and_images_have_their_observations() {
    let (store, start, stop) = (s("00WN,100,65,300,000"), s("00PS,100"), s("00EE"));
    let calls = format!("V; X; {store}; {start}; M; M; V; {stop}; V; X; K campos -5; V; X");
    let image = |front: &str, empty: usize| format!("{front}{}", "0000".repeat(empty));
    let (stand, answered) = ("stand:1,0,0 00000000000000", "00Y\\x0d 463 - -");
    let expected = [
        format!("- 0,1,2,0,0,+0,0,0,+0,0,0,0,+0,0,0,0,+0,0,0 - - - {stand}"),
        format!("- {} - - - {stand}", image("0001020000", 128)),
        format!("- {answered} {stand}"),
        format!("- {answered} {stand}"),
        format!("- - - - - {stand}"),
        format!("- - - - - {stand}"),
        format!("- 0,1,2,0,0,+0,0,0,+0,0,0,0,+0,0,100,1,+299,0,0 - - - {stand}"),
        format!("- {answered} {stand}"),
        format!("- 0,1,2,0,0,+0,0,0,+0,0,0,100,+299,0,0,0,+0,0,0 - - - {stand}"),
        format!("- {} - - - {stand}", image("000102000041ac0200", 127)),
        "- unsound - - - !2 00000000000000".to_string(),
        "- 0,1,2,0,0,+0,0,0,-5,0,0,100,+299,0,0,0,+0,0,0 - - - !2 00000000000000".to_string(),
        "2 - - - - !2 00000000000000".to_string(),
    ];
    assert_eq!(seen(&calls), expected);
}

// Every field at an end that the record holds, sound or not; K's own order.
#[test]
fn a_record_shows_what_is_written() {
    let fields = "ad 255; in 254; rs 7; es 0; cm 1; pos 2147483647; inp 2047; camset 0; campos -2147483648; \
                  errcode 253; errcell 252; reccell 251; recrest -2147483648; recloop 65535; cell 250; \
                  phase 1; rest 4294967295; loop 65534; mark 1";
    let shown = seen(&format!("K {}; V", fields.replace("; ", "; K ")));
    let expected =
        "255,254,7,0,1,+2147483647,2047,0,-2147483648,253,252,251,-2147483648,65535,250,1,\
                    +4294967295,65534,1";
    assert_eq!(shown[19].split(' ').nth(1), Some(expected));
    for phase in 0..7 {
        let shown = seen(&format!("K phase {phase}; V"));
        assert!(shown[1].contains(&format!(",0,{phase},+0,0,0 ")), "{}", shown[1]);
    }
}

#[test]
fn unsound_drive_refuses_2_and_keeps_its_outputs() {
    let seen = seen("K out O1 1; K ad 48; M; I 0; P; A; H; W 0; B; Q; T 100; T 0; U; X; R 5");
    assert_eq!(seen[1], "- unsound - - - !2 01000000000000");
    for line in &seen[2..14] {
        assert_eq!(line, "2 - - - - !2 01000000000000");
    }
    assert_eq!(seen[14], "- 5 - - - !2 01000000000000");
}

#[test]
fn full_reading_of_a_fresh_drive() {
    // 131 cells, presets, position, outputs, inputs, cam, error, record, each with address and 13.
    let length = 131 * 16 + 4 * 10 + 11 + 8 + 14 * 10 + 11 * 10 + 7 + 12 + 9;
    let seen = seen("Q");
    let answer = seen[0].split(' ').nth(1).unwrap_or_default();
    assert!(answer.starts_with(&format!("{length}:")), "{answer}");
}

#[test]
fn unrepresentable_value_leaves_the_drive() {
    let seen = seen("K in 3; K out FC 1; K in 256; B");
    assert_eq!(seen[2], "- unrepresentable - - - stand:3,0,1 00000000000010");
    assert_eq!(seen[3], "- - - - - stand:3,0,1 00000000000010");
}

#[test]
fn presets() {
    check(
        "sound",
        "ad 47
         in 3
         rs 7
         es 1
         cm 1",
    );
    check(
        "unsound",
        "ad 48
         ad 255
         in 4
         in 255",
    );
    check(
        "unrepresentable",
        "ad 256
         in 256
         rs 8
         es 2
         cm 2
         ad 4294967295",
    );
}

#[test]
fn position_and_inputs() {
    check(
        "sound",
        "pos -2147483648
         pos 2147483647
         pos +5
         inp 0
         inp 2047",
    );
    check(
        "unrepresentable",
        "pos 2147483648
         pos -2147483649
         pos -4294967295
         inp 2048",
    );
}

#[test]
fn outputs() {
    for name in ["O0", "O1", "O2", "O3", "F0", "F1", "F2", "F3", "F4", "F5", "F6", "F7", "FC", "CU"]
    {
        assert_eq!(written(&format!("out {name} 1")), "sound");
        assert_eq!(written(&format!("out {name} 2")), "unrepresentable");
    }
    let seen = seen("K out F0 1; K out CU 1; K out O3 1; K out FC 1; K out F0 0");
    assert_eq!(seen[3], "- sound - - - stand:1,1,1 00011000000011");
    assert_eq!(seen[4], "- sound - - - stand:1,1,1 00010000000011");
}

#[test]
fn unset_cam_has_position_0() {
    check(
        "sound",
        "camset 1
         camset 1; campos -7
         camset 1; campos 2147483647
         campos 0",
    );
    check(
        "unsound",
        "campos 1
         camset 1; campos -7; camset 0",
    );
    check(
        "unrepresentable",
        "camset 2
         campos 2147483648",
    );
}

#[test]
fn error_is_0_or_50_to_52_with_a_cell() {
    check(
        "sound",
        "errcode 50; errcell 100
         errcode 51; errcell 230
         errcode 52; errcell 101",
    );
    check(
        "unsound",
        "errcode 50
         errcell 100
         errcode 49; errcell 100
         errcode 53; errcell 100
         errcode 50; errcell 99
         errcode 50; errcell 231",
    );
    check(
        "unrepresentable",
        "errcode 256
         errcell 256",
    );
}

#[test]
fn empty_record_is_three_zeros() {
    check(
        "sound",
        "reccell 0; recrest 0; recloop 0
         reccell 100
         reccell 230; recloop 65535",
    );
    check(
        "unsound",
        "recrest 1
         recrest -1
         recloop 1
         reccell 99
         reccell 231
         reccell 255",
    );
    check(
        "unrepresentable",
        "reccell 256
         recloop 65536
         recrest 2147483648
         recrest -2147483649",
    );
}

#[test]
fn record_has_a_rest_for_an_indexed_run_or_a_65() {
    let indexed = ["1 3 10 5 1", "31 30 10 5 1", "11 2 5 1", "21 1 5 1"];
    for code in indexed {
        for (rest, expected) in [
            ("33554428", "sound"),
            ("-33554428", "sound"),
            ("0", "sound"),
            ("33554429", "unsound"),
            ("-33554429", "unsound"),
        ] {
            let fields = format!("c140 {code} 0; reccell 140; recrest {rest}");
            assert_eq!(written(&fields), expected, "{fields}");
        }
    }
    for code in ["0", "2 3 10 1 1", "3 3 10 1 2", "5 3 10 1 1 1", "12 2 1 1", "58 0 1", "69"] {
        assert_eq!(written(&format!("c140 {code} 0; reccell 140; recrest 1")), "unsound");
        assert_eq!(written(&format!("c140 {code} 0; reccell 140; recrest -1")), "unsound");
        assert_eq!(written(&format!("c140 {code} 0; reccell 140; recrest 0")), "sound");
    }
    check(
        "sound",
        "c140 65 9 0; reccell 140; recrest 33554428
         c140 65 8388607 0; reccell 140; recrest 8388607
         c140 65 8388607 0; reccell 140; recrest 8388608
         c140 65 8388607 0; reccell 140; recrest 33554428
         c140 65 9 0; reccell 140; recrest 0",
    );
    check(
        "unsound",
        "c140 65 9 0; reccell 140; recrest 33554429
         c140 65 8388607 0; reccell 140; recrest 33554429
         c140 65 9 0; reccell 140; recrest 4294967295",
    );
    check("unrepresentable", "c140 65 9 0; reccell 140; recrest -1");
}

#[test]
fn rest_gets_its_unit_anew() {
    check(
        "sound",
        "c140 65 9 0; c141 11 2 5 1 0; reccell 140; recrest 7; reccell 141
         c140 65 9 0; c141 11 2 5 1 0; reccell 141; recrest 7; reccell 140
         c140 65 9 0; reccell 140; recrest 7; c140 11 2 5 1 0",
    );
    check(
        "unsound",
        "c140 65 9 0; reccell 140; recrest 7; c140 0 0
         recrest -7; reccell 99",
    );
    check(
        "unrepresentable",
        "c140 65 9 0; reccell 140; recrest 4294967295; reccell 141
         c140 11 2 5 1 0; reccell 140; recrest -7; c140 65 9 0
         c140 65 9 0; recrest -7; reccell 140
         cell 100; phase 2; rest -7; phase 1
         cell 100; phase 1; rest 4294967295; phase 2",
    );
}

#[test]
fn idle_drive_has_five_zeros() {
    check(
        "sound",
        "cell 0
         cell 100
         cell 230; loop 65535",
    );
    check(
        "unsound",
        "phase 1
         phase 2
         phase 6
         rest 1
         rest -1
         loop 1
         mark 1
         cell 99
         cell 231
         cell 255",
    );
    check(
        "unrepresentable",
        "cell 256
         phase 7
         loop 65536
         mark 2
         rest 2147483648
         rest -2147483649",
    );
}

/// A phase with the signs that its rest may have and the values of its mark.
type Phase = (u8, &'static str, &'static str);

/// For each code its phases.
const PHASES: [(&str, &[Phase]); 23] = [
    ("0", &[(0, "0", "0")]),
    ("1 24 42 8388607 4", &[(0, "0", "0"), (2, "-+", "01"), (5, "-+", "01")]),
    ("31 240 42 -8388607 1", &[(0, "0", "0"), (2, "-+", "01"), (5, "-+", "01")]),
    ("2 3 10 1 1", &[(0, "0", "0"), (2, "0", "01"), (4, "0", "01"), (5, "0", "01")]),
    ("32 30 10 -1 4", &[(0, "0", "0"), (2, "0", "01"), (4, "0", "01"), (5, "0", "01")]),
    ("3 3 10 1 2", &[(0, "0", "0"), (2, "0", "01"), (4, "0", "01"), (5, "0", "01"), (6, "0", "0")]),
    ("5 3 10 1 0 1", &[(0, "0", "0"), (2, "0", "01"), (3, "+", "1"), (5, "0+", "01")]),
    ("5 3 10 -1 8388607 4", &[(0, "0", "0"), (2, "0", "01"), (3, "-", "1"), (5, "-0", "01")]),
    ("11 2 0 1", &[(0, "0", "0"), (2, "-+", "0")]),
    ("21 4800 5 1", &[(0, "0", "0"), (2, "-+", "0")]),
    ("12 30 1 1", &[(0, "0", "0"), (2, "0", "0")]),
    ("22 1 -1 4", &[(0, "0", "0"), (2, "0", "0")]),
    ("57 1 -5", &[(0, "0", "0")]),
    ("58 12 1", &[(0, "0", "0")]),
    ("60", &[(0, "0", "0")]),
    ("61 1", &[(0, "0", "0")]),
    ("62 100", &[(0, "0", "0")]),
    ("63 15 1 230", &[(0, "0", "0")]),
    ("65 0", &[(0, "0", "0"), (1, "+", "0")]),
    ("65 65535", &[(0, "0", "0"), (1, "+", "0")]),
    ("65 8388607", &[(0, "0", "0"), (1, "+", "0")]),
    ("69", &[(0, "0", "0")]),
    ("70 1", &[(0, "0", "0")]),
];

#[test]
fn busy_drive_has_phase_rest_and_mark_of_its_code() {
    for (code, phases) in PHASES {
        for phase in 0..=6 {
            for (sign, rest) in [("-", "-33554428"), ("0", "0"), ("+", "33554428")] {
                for mark in ["0", "1"] {
                    let fields =
                        format!("c150 {code} 0; cell 150; rest {rest}; mark {mark}; phase {phase}");
                    let sound = phases.iter().any(|(p, signs, marks)| {
                        *p == phase && signs.contains(sign) && marks.contains(mark)
                    });
                    let expected = match (phase, sign, sound) {
                        (1, "-", _) => "unrepresentable",
                        (_, _, true) => "sound",
                        (_, _, false) => "unsound",
                    };
                    assert_eq!(written(&fields), expected, "{fields}");
                }
            }
        }
    }
}

#[test]
fn busy_rest_is_within_33554428() {
    check(
        "sound",
        "c150 65 9 0; cell 150; phase 1; rest 33554428
         c150 65 8388607 0; cell 150; phase 1; rest 8388607
         c150 65 8388607 0; cell 150; phase 1; rest 8388608
         c150 65 8388607 0; cell 150; phase 1; rest 33554428",
    );
    check(
        "unsound",
        "c150 65 9 0; cell 150; phase 1; rest 33554429
         c150 65 8388607 0; cell 150; phase 1; rest 33554429
         c150 65 9 0; cell 150; phase 1; rest 4294967295
         c150 11 2 5 1 0; cell 150; phase 2; rest 33554429
         c150 11 2 5 1 0; cell 150; phase 2; rest -33554429
         c150 5 3 10 1 0 1 0; cell 150; mark 1; phase 3; rest 33554429
         c150 5 3 10 -1 0 1 0; cell 150; phase 5; rest -33554429",
    );
    check("unrepresentable", "c150 11 2 5 1 0; cell 150; phase 2; rest 2147483648");
}

#[test]
fn cells() {
    check(
        "sound",
        "c100 0 0
         c230 00 230
         c100 0 100
         c100 69 0
         c100 57 0 0 0
         c100 57 1 0 0
         c100 58 0 0 0
         c100 63 0 0 100 0
         c100 61 65535 0
         c100 65 65535 0
         c100 65 65536 0
         c100 65 8388607 0
         c100 70 0 0
         c100 60 0
         c100 21 4571 -8388607 4 0
         c100 5 24 42 -1 8388607 4 0",
    );
    check(
        "unsound",
        "c100 0 99
         c100 0 231
         c100 69 100
         c100 57 0 1 0
         c100 58 13 0 0
         c100 63 16 0 100 0
         c100 63 0 0 99 0
         c100 63 0 0 231 0
         c100 61 0 0
         c100 62 99 0
         c100 62 0 0
         c100 65 8388608 0
         c100 65 4294967295 0
         c100 1 2 10 0 1 0
         c100 1 25 10 0 1 0
         c100 1 3 9 0 1 0
         c100 1 3 43 0 1 0
         c100 1 3 10 8388608 1 0
         c100 1 3 10 -8388608 1 0
         c100 2 25 10 1 1 0
         c100 2 3 9 1 1 0
         c100 3 2 10 1 2 0
         c100 3 3 43 1 2 0
         c100 3 3 10 1 1 0
         c100 3 3 10 1 31 0
         c100 5 2 10 1 0 1 0
         c100 5 3 9 1 0 1 0
         c100 5 3 10 1 -1 1 0
         c100 5 3 10 1 8388608 1 0
         c100 11 1 0 1 0
         c100 11 31 0 1 0
         c100 11 2 8388608 1 0
         c100 12 1 1 1 0
         c100 12 31 1 1 0
         c100 21 1 8388608 1 0
         c100 31 29 10 0 1 0
         c100 31 241 10 0 1 0
         c100 31 30 43 0 1 0
         c100 31 30 10 -8388608 1 0
         c100 32 29 10 1 1 0
         c100 32 241 10 1 1 0
         c100 32 30 9 1 1 0",
    );
    check(
        "unrepresentable",
        "c100 0 256
         c100 69 256
         c100 99 0
         c100 57 2 0 0
         c100 57 1 2147483648 0
         c100 58 256 0 0
         c100 58 0 2 0
         c100 63 256 0 100 0
         c100 61 65536 0
         c100 62 256 0
         c100 65 -1 0
         c100 70 2 0
         c100 1 256 10 0 1 0
         c100 1 3 10 0 2 0
         c100 2 3 10 0 1 0
         c100 11 2 2147483648 1 0
         c100 21 2200 0 1 0
         c100 21 0 0 1 0
         c100 22 4799 1 1 0
         c100 22 65537 1 1 0",
    );
}

/// Raw cells and what QM shows of them.
const READ_BACK: &str = "\
0 000 => 00,000
1 3 10 -5 4 100 => 01,03,10,-5,x4,100
2 24 42 -1 1 230 => 02,24,42,-,x1,230
3 3 10 1 2 0 => 03,03,10,+,02,000
5 3 10 1 0 1 0 => 05,03,10,+,0,x1,000
11 2 0 4 0 => 11,02,+0,x4,000
12 30 -1 4 0 => 12,30,-,x4,000
21 7 12 1 0 => 21,0007,+12,x1,000
22 4800 1 4 0 => 22,4800,+,x4,000
31 30 42 7 1 0 => 31,030,42,+7,x1,000
32 240 10 -1 4 0 => 32,240,10,-,x4,000
57 1 -2147483648 0 => 57,1,-2147483648,000
57 0 0 0 => 57,0,+0,000
58 4 1 0 => 58,FC,1,000
58 12 0 0 => 58,F7,0,000
60 101 => 60,101
61 65535 0 => 61,65535,000
62 100 230 => 62,100,230
63 3 1 100 0 => 63,PX,1,100,000
63 15 0 101 0 => 63,F7,0,101,000
65 0 0 => 65,0,000
65 8388607 0 => 65,8388607,000
69 0 => 69
70 1 0 => 70,1,000";

#[test]
fn raw_cell_is_read_back_as_qm_shows_it() {
    for case in READ_BACK.lines() {
        let (raw, shown) = case.split_once(" => ").unwrap();
        let seen = seen(&format!("K c177 {raw}; {}", s("00QM,177")));
        let answer = seen[1].split(' ').nth(1).unwrap_or_default();
        assert_eq!(answer, format!("00QM,177,{shown}\\x0d"));
    }
}

/// Lines that are malformed as the third of a script, each with a part of the complaint.
const MALFORMED: &str = "\
Y => not a call
 => not a call
m => not a call
 M => not a call
MM => not a call
M  => missing or extra word
M 1 => missing or extra word
F => missing or extra word
F 0 0 => missing or extra word
F -1 => not a number
F 4294967296 => not a number
F +1 => not a number
F  1 => missing or extra word
F  => not a number
F 0x1 => not a number
S 30 64 => missing or extra word
S 30 64 0 0 => missing or extra word
S 30 257 0 => above 256
S 30 64 256 => above 255
S 303 64 0 => hex
S 0D 64 0 => hex
S 0g 64 0 => hex
S  64 0 => hex
S -- 64 0 => hex
S +1 64 0 => hex
I => missing or extra word
I -1 => not a number
I 4294967296 => not a number
P 1 => missing or extra word
A 1 => missing or extra word
H 1 => missing or extra word
W => missing or extra word
W 1 1 => missing or extra
W 99999999999999999999 => not a number
B 0 => missing or extra word
R => missing or extra word
R 1.5 => not a number
Q 1 => missing or extra word
O => missing or extra word
O 64 => missing or extra word
O 64 0 0 => missing or extra word
O x 0 => not a number
O 64 -1 => not a number
O 2049 0 => above 2048
O 64 256 => above 255
L => missing or extra word
L 00 00 => missing or extra word
L 0 => hex
L 0A => hex
L  => hex
T => missing or extra word
T 100 0 => missing or extra word
T  100 => missing or extra word
T  => not a number
T x => not a number
T -1 => not a number
T +100 => not a number
T 4294967296 => not a number
t 100 => not a call
U 1 => missing or extra word
V 0 => missing or extra word
X 64 0 => missing or extra word
U x => missing or extra word
U  => missing or extra word
U 100 0 => missing or extra word
u => not a call
UU => not a call
K => missing name
K foo 1 => unknown name
K AD 1 => unknown name
K ad => missing or extra word
K ad 1 2 => missing or extra word
K ad -1 => not a number
K ad +1 => not a number
K pos 4294967296 => not a number
K pos --1 => not a number
K rest 1 1 => missing or extra word
K out O4 1 => unknown name
K out BS 1 => unknown name
K out O1 => missing or extra
K c099 0 0 => unknown name
K c231 0 0 => unknown name
K c1000 0 0 => unknown name
K c100 => a code and a next
K c100 0 => a code and a next
K c100 65 0 => missing or extra parameter
K c100 0 0 0 => missing or extra parameter";

#[test]
fn malformed_line_is_named_by_its_number() {
    for case in MALFORMED.lines() {
        let (line, part) = case.split_once(" => ").unwrap();
        let complaint = replay(&format!("F 0\n# comment\n{line}\nM\n")).unwrap_err();
        assert!(complaint.starts_with("line 3: "), "{line:?}: {complaint}");
        assert!(complaint.contains(part), "{line:?}: {complaint}");
    }
    let long = format!("F 0\nS {} 64 0\n", "30".repeat(257));
    assert!(replay(&long).unwrap_err().starts_with("line 2: "));
    assert!(replay(&long.replacen("30", "", 1)).is_ok());
    let long = format!("F 0\nL {}\n", "30".repeat(2049));
    assert!(replay(&long).unwrap_err().starts_with("line 2: "));
    assert!(replay(&long.replacen("30", "", 1)).is_ok());
    assert!(replay("F 0\r\n").unwrap_err().starts_with("line 1: "));
}

#[test]
fn first_call_is_an_f_that_is_not_refused() {
    for script in ["M\n", "F 48\n", "K ad 1\n", "\n", "F\n"] {
        assert!(replay(script).unwrap_err().starts_with("line 1: "), "{script:?}");
    }
    assert_eq!(replay("").unwrap(), "");
    assert_eq!(replay("# only a comment\n").unwrap(), "");
    assert!(replay("# comment\nF 47\n").is_ok());
}

#[test]
fn program_writes_what_stands_before_a_malformed_line() {
    let mut program = Command::new(env!("CARGO_BIN_EXE_reference"))
        .arg("replay")
        .stdin(Stdio::piped())
        .stdout(Stdio::piped())
        .stderr(Stdio::piped())
        .spawn()
        .unwrap();
    program.stdin.take().unwrap().write_all(b"F 7\nM\nZ\nM\n").unwrap();
    let output = program.wait_with_output().unwrap();
    let stand = "- - - - - stand:1,0,0 00000000000000\n";
    assert_eq!(String::from_utf8_lossy(&output.stdout), stand.repeat(2));
    assert_eq!(String::from_utf8_lossy(&output.stderr), "line 3: not a call: \"Z\"\n");
    assert_eq!(output.status.code(), Some(2));
}

#[test]
fn program_without_a_known_word_prints_its_usage() {
    for words in [&[][..], &["replay", "x"], &["generate", "1"], &["generate", "x", "1"]] {
        let output = Command::new(env!("CARGO_BIN_EXE_reference")).args(words).output().unwrap();
        assert_eq!(output.status.code(), Some(2), "{words:?}");
        assert!(output.stdout.is_empty());
        assert!(output.stderr.starts_with(b"usage: "));
    }
}
