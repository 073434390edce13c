//! Why a string gets N or no answer: whole sentences, by hand. Every code, every command and every
//! kind of field is here; each limit is tried at both of its ends and one beyond. Generated strings
//! are in `reasons/generated.rs`, scripts with reasons in `reasons/explain.rs`.

#[path = "reasons/explain.rs"]
mod explain;
#[path = "reasons/generated.rs"]
mod generated;
#[path = "common/scripts.rs"]
mod scripts;

use reference::memory::Drive;
use reference::reasons::Explanation;

fn fresh() -> Drive {
    Drive::fresh(0).expect("01 takes address 0")
}

/// Gives a string to a drive and holds what is explained to what is answered.
fn given(drive: &mut Drive, string: &[u8]) -> Explanation {
    let explanation = drive.explain(string).expect("the drive is sound");
    let before = *drive;
    let mut buffer = [0; 64];
    let length = drive.string(string, &mut buffer).expect("the drive is sound");
    match &explanation {
        Explanation::Silent(_) => assert_eq!(length, None),
        Explanation::Rejected(_) => {
            assert_eq!(buffer[2..length.expect("an answer")], *b"N\r");
            assert_eq!(*drive, before);
        }
        Explanation::Taken => assert_ne!(buffer[2..length.expect("an answer")], *b"N\r"),
    }
    explanation
}

/// A text behind the drive's address 00.
fn said(drive: &mut Drive, text: &str) -> Explanation {
    given(drive, format!("00{text}\r").as_bytes())
}

fn rejected(text: &str, sentence: &str) {
    let expected = Explanation::Rejected(sentence.to_string());
    assert_eq!(said(&mut fresh(), text), expected, "{text:?}");
}

fn taken(text: &str) {
    assert_eq!(said(&mut fresh(), text), Explanation::Taken, "{text:?}");
}

/// Cases of a text and its sentence, a line each.
fn all_rejected(cases: &str) {
    for case in cases.lines() {
        let (text, sentence) = case.split_once(" => ").expect("a text and its sentence");
        rejected(text.trim_end(), sentence);
    }
}

const CODES: &str = "commands are WN, WS, PS, EE, ES, SA, SO and SC, \
                     requests QA, QS, QI, QO, QM, QC, QE and QR";

#[test]
fn an_unknown_code_is_told_with_those_that_there_are() {
    let cases = [
        ("XY", "XY is no command or request: "),
        ("Q", "Q is no command or request: "),
        ("CY", "CY is no command or request: "),
        ("W\u{1}N,100,00,000", "W\\x01N is no command or request: "),
        ("Q\\", "Q\\x5c is no command or request: "),
        ("", "the string has no code after its address: "),
        (",100", "the string has no code after its address: "),
        ("qa", "qa is no command or request: codes are capital letters (QA); "),
        ("qm,100", "qm is no command or request: codes are capital letters (QM); "),
        ("QM100", "QM100 is no command or request: a comma stands after QM; "),
        ("WN100,00,000", "WN100 is no command or request: a comma stands after WN; "),
        ("EEX", "EEX is no command or request: nothing stands after EE; "),
        ("QA\r", "QA\\x0d is no command or request: nothing stands after QA; "),
        (" QA", "\" QA\" is no command or request: no space is taken anywhere in a string; "),
    ];
    for (text, sentence) in cases {
        rejected(text, &format!("{sentence}{CODES}"));
    }
}

#[test]
fn a_string_of_over_64_bytes_is_too_long() {
    let long = "the string has over 64 bytes with its 13, and 64 is the most";
    rejected(&format!("QA{}", "0".repeat(60)), long);
    rejected(&"0".repeat(200), long);
    let code = "0".repeat(61);
    rejected(&code, &format!("{code} is no command or request: {CODES}"));
}

const COUNTS: &str = "\
WS            => WS takes 2 fields, VV,value, and the string has none
WS,AD         => WS takes 2 fields, VV,value, and the string has 1
WS,AD,1,2     => WS takes 2 fields, VV,value, and the string has 3
PS            => PS takes 1 field, BBB, and the string has none
PS,100,100    => PS takes 1 field, BBB, and the string has 2
EE,           => EE takes no field, and the string has 1, which is empty
ES,1          => ES takes no field, and the string has 1
SA            => SA takes 1 field, nnn, and the string has none
SA,1,         => SA takes 1 field, nnn, and the string has 2, of which the last is empty
SO,O0         => SO takes 2 fields, OO,V, and the string has 1
SC            => SC takes 2 fields, V,±nnn, and the string has none
SC,1          => SC takes 2 fields, V,±nnn, and the string has 1: only SC,0 may end there
SC,0,+1,      => SC takes 2 fields, V,±nnn, and the string has 3, of which the last is empty
QA,           => QA takes no field, and the string has 1, which is empty
QS            => QS takes 1 field, VV, and the string has none
QI            => QI takes 1 field, name, and the string has none
QO,O0,1       => QO takes 1 field, name, and the string has 2
QM            => QM takes 1 field, BBB, and the string has none
QC,0          => QC takes no field, and the string has 1
QE,,          => QE takes no field, and the string has 2, of which the last is empty
QR,100        => QR takes no field, and the string has 1
WN            => WN takes 2 fields at least, BBB,CC,..,DDD, and the string has none
WN,100        => WN takes 2 fields at least, BBB,CC,..,DDD, and the string has 1
WN,100,00     => code 00 takes 3 fields, BBB,00,DDD, and the string has 2
WN,100,01,000 => code 01 takes 7 fields, BBB,01,FF,RR,n,XX,DDD, and the string has 3
WN,100,02,000 => code 02 takes 7 fields, BBB,02,FF,RR,s,XX,DDD, and the string has 3
WN,100,03,000 => code 03 takes 7 fields, BBB,03,FF,RR,s,LL,DDD, and the string has 3
WN,100,05,000 => code 05 takes 8 fields, BBB,05,FF,RR,s,nnn,XX,DDD, and the string has 3
WN,100,11,000 => code 11 takes 6 fields, BBB,11,FF,n,XX,DDD, and the string has 3
WN,100,12,000 => code 12 takes 6 fields, BBB,12,FF,s,XX,DDD, and the string has 3
WN,100,21,000 => code 21 takes 6 fields, BBB,21,FFFF,n,XX,DDD, and the string has 3
WN,100,22,000 => code 22 takes 6 fields, BBB,22,FFFF,s,XX,DDD, and the string has 3
WN,100,31,000 => code 31 takes 7 fields, BBB,31,FFF,RR,n,XX,DDD, and the string has 3
WN,100,32,000 => code 32 takes 7 fields, BBB,32,FFF,RR,s,XX,DDD, and the string has 3
WN,100,57,000 => code 57 takes 5 fields, BBB,57,V,±nnn,DDD, and the string has 3
WN,100,58,000 => code 58 takes 5 fields, BBB,58,OO,V,DDD, and the string has 3
WN,100,60     => code 60 takes 3 fields, BBB,60,DDD, and the string has 2
WN,100,61,000 => code 61 takes 4 fields, BBB,61,nnn,DDD, and the string has 3
WN,100,62,000 => code 62 takes 4 fields, BBB,62,EEE,DDD, and the string has 3
WN,100,63,000 => code 63 takes 6 fields, BBB,63,II,V,EEE,DDD, and the string has 3
WN,100,65,000 => code 65 takes 4 fields, BBB,65,nnn,DDD, and the string has 3
WN,100,69,000 => code 69 takes 2 fields, BBB,69, and the string has 3: a 69 has no DDD
WN,100,69,    => code 69 takes 2 fields, BBB,69, and the string has 3, of which the last is empty
WN,100,70,000 => code 70 takes 4 fields, BBB,70,S,DDD, and the string has 3
WN,100,65,1,000, => code 65 takes 4 fields, BBB,65,nnn,DDD, and the string has 5, of which the last is empty";

#[test]
fn a_wrong_number_of_fields_is_told_with_the_right_one() {
    all_rejected(COUNTS);
}

const FORMS: &str = "\
PS,99                         => field 1 (BBB) has exactly 3 digits, and 99 is not that
PS,                           => field 1 (BBB) is empty, and exactly 3 digits are taken
QM,1000                       => field 1 (BBB) has exactly 3 digits, and 1000 is not that
QM,1O0                        => field 1 (BBB) has exactly 3 digits, and 1O0 is not that
WN,+10,00,000                 => field 1 (BBB) has exactly 3 digits, and +10 is not that
WN,100,01,5,20,+5,x1,000      => field 3 (FF) has exactly 2 digits, and 5 is not that
WN,100,01,,20,+5,x1,000       => field 3 (FF) is empty, and exactly 2 digits are taken
WN,100,01,05,020,+5,x1,000    => field 4 (RR) has exactly 2 digits, and 020 is not that
WN,100,01,05,20,500,x1,000    => field 5 (n) is a sign and 1 to 10 digits, and 500 is not that
WN,100,01,05,20,+,x1,000      => field 5 (n) is a sign and 1 to 10 digits, and + is not that
WN,100,01,05,20,,x1,000       => field 5 (n) is empty, and a sign and 1 to 10 digits is taken
WN,100,01,05,20,+5,x2,000     => field 6 (XX) is x1 or x4, and x2 is not that
WN,100,01,05,20,+5,,000       => field 6 (XX) is empty, and x1 or x4 is taken
WN,100,01,05,20,+5,x1,0       => field 7 (DDD) has exactly 3 digits, and 0 is not that
WN,100,02,05,20,+5,x1,000     => field 5 (s) is + or -, and +5 is not that
WN,100,02,05,20,,x1,000       => field 5 (s) is empty, and + or - is taken
WN,100,03,05,20,-,2,000       => field 6 (LL) has exactly 2 digits, and 2 is not that
WN,100,05,05,20,-,+3,x1,000   => field 6 (nnn) has 1 to 10 digits, and +3 is not that
WN,100,05,05,20,-,3,x,000     => field 7 (XX) is x1 or x4, and x is not that
WN,100,11,5,+5,x1,000         => field 3 (FF) has exactly 2 digits, and 5 is not that
WN,100,12,05,0,x1,000         => field 4 (s) is + or -, and 0 is not that
WN,100,21,224,+1,x1,000       => field 3 (FFFF) has exactly 4 digits, and 224 is not that
WN,100,22,0224,+,1,000        => field 5 (XX) is x1 or x4, and 1 is not that
WN,100,31,24,20,+1,x1,000     => field 3 (FFF) has exactly 3 digits, and 24 is not that
WN,100,32,100,1,+,x1,000      => field 4 (RR) has exactly 2 digits, and 1 is not that
WN,100,57,2,+1,000            => field 3 (V) is 0 or 1, and 2 is not that
WN,100,57,,+1,000             => field 3 (V) is empty, and 0 or 1 is taken
WN,100,57,0,1,000             => field 4 (±nnn) is a sign and 1 to 10 digits, and 1 is not that
WN,100,58,CU,1,000            => field 3 (OO) is one of O0 to O3, FC and F0 to F7, and CU is not that
WN,100,58,,1,000              => field 3 (OO) is empty, and one of O0 to O3, FC and F0 to F7 is taken
WN,100,58,O0,01,000           => field 4 (V) is 0 or 1, and 01 is not that
WN,100,61,12345678901,000     => field 3 (nnn) has 1 to 10 digits, and 12345678901 is not that
WN,100,61,,000                => field 3 (nnn) is empty, and 1 to 10 digits are taken
WN,100,62,10,000              => field 3 (EEE) has exactly 3 digits, and 10 is not that
WN,100,63,ST,1,100,000        => field 3 (II) is one of I0 to I2, PX, S0 to S3 and F0 to F7, and ST is not that
WN,100,63,I0,x,100,000        => field 4 (V) is 0 or 1, and x is not that
WN,100,63,I0,1,1,000          => field 5 (EEE) has exactly 3 digits, and 1 is not that
WN,100,65,-5,000              => field 3 (nnn) has 1 to 10 digits, and -5 is not that
WN,100,70,on,000              => field 3 (S) is 0 or 1, and on is not that
WS,EQ,1                       => field 1 (VV) is one of AD, IN, RS, ES and CM, and EQ is not that
WS,,1                         => field 1 (VV) is empty, and one of AD, IN, RS, ES and CM is taken
WS,AD,-1                      => field 2 (value of AD) has 1 to 10 digits, and -1 is not that
WS,IN,                        => field 2 (value of IN) is empty, and 1 to 10 digits are taken
WS,RS,D4                      => field 2 (value of RS) is one of D0 to D3 and B0 to B3, and D4 is not that
WS,ES,off                     => field 2 (value of ES) has 1 to 10 digits, and off is not that
WS,CM,x                       => field 2 (value of CM) has 1 to 10 digits, and x is not that
SA,+                          => field 1 (nnn) is an optional sign and 1 to 10 digits, and + is not that
SA,+-5                        => field 1 (nnn) is an optional sign and 1 to 10 digits, and +-5 is not that
SA,                           => field 1 (nnn) is empty, and an optional sign and 1 to 10 digits is taken
SO,CU,1                       => field 1 (OO) is one of O0 to O3, FC and F0 to F7, and CU is not that
SO,O1,2                       => field 2 (V) is 0 or 1, and 2 is not that
SC,2,+1                       => field 1 (V) is 0 or 1, and 2 is not that
SC,00                         => SC takes 2 fields, V,±nnn, and the string has 1: only SC,0 may end there
SC,0,                         => field 2 (±nnn) is empty, and a sign and 1 to 10 digits is taken
SC,1,5                        => field 2 (±nnn) is a sign and 1 to 10 digits, and 5 is not that
QS,RD                         => field 1 (VV) is one of AD, IN, RS, ES and CM, and RD is not that
QI,O0                         => field 1 (name) is one of I0 to I2, PX, S0 to S3, ST, ES and EE, and O0 is not that
QO,F8                         => field 1 (name) is one of O0 to O3, FC, F0 to F7, CU, BS and FA, and F8 is not that
QO,                           => field 1 (name) is empty, and one of O0 to O3, FC, F0 to F7, CU, BS and FA is taken";

#[test]
fn a_field_of_a_wrong_form_is_told_with_the_right_one() {
    all_rejected(FORMS);
}

const INSTRUCTIONS: &str =
    "00, 01, 02, 03, 05, 11, 12, 21, 22, 31, 32, 57, 58, 60, 61, 62, 63, 65, 69 and 70";

#[test]
fn an_unknown_instruction_code_is_told_with_those_that_there_are() {
    let codes = format!("field 2 (CC) is one of {INSTRUCTIONS}");
    rejected("WN,100,04,000", &format!("04 is no instruction code: {codes}"));
    rejected("WN,100,1,000", &format!("1 is no instruction code: {codes}"));
    let space = "no space is taken anywhere in a string";
    rejected("WN,100, 65,400,000", &format!("\" 65\" is no instruction code: {codes}: {space}"));
    rejected("WN,100,", &format!("field 2 (CC) is empty, and one of {INSTRUCTIONS} is taken"));
}

// Slip 8 of 02 has not landed.
#[test]
fn a_space_is_shown_and_told() {
    let space = "no space is taken anywhere in a string";
    let cases = [
        ("PS, 100", "field 1 (BBB) has exactly 3 digits, and \" 100\" is not that"),
        ("SO,O0,1 ", "field 2 (V) is 0 or 1, and \"1 \" is not that"),
        ("WS, IN,1", "field 1 (VV) is one of AD, IN, RS, ES and CM, and \" IN\" is not that"),
        ("SA, 5", "field 1 (nnn) is an optional sign and 1 to 10 digits, and \" 5\" is not that"),
    ];
    for (text, sentence) in cases {
        rejected(text, &format!("{sentence}: {space}"));
    }
    rejected("PS,10\u{0}", "field 1 (BBB) has exactly 3 digits, and 10\\x00 is not that");
}

/// A text with a place for its number, the field that it is, and how what is taken is written: the
/// least, the greatest, and one beyond each (`-` where there is none that can be written).
const LIMITS: &str = "\
PS,#                         | 1 (BBB)         | 099 100 230 231
QM,#                         | 1 (BBB)         | 099 100 230 231
WN,#,00,000                  | 1 (BBB)         | 099 100 230 231
WN,100,01,#,20,+5,x1,000     | 3 (FF)          | 02 03 24 25
WN,100,01,05,#,+5,x1,000     | 4 (RR)          | 09 10 42 43
WN,100,01,05,20,#,x1,000     | 5 (n)           | -8388608 -8388607 +8388607 +8388608
WN,100,02,#,20,+,x1,000      | 3 (FF)          | 02 03 24 25
WN,100,02,05,#,+,x1,000      | 4 (RR)          | 09 10 42 43
WN,100,03,#,20,+,05,000      | 3 (FF)          | 02 03 24 25
WN,100,03,05,#,+,05,000      | 4 (RR)          | 09 10 42 43
WN,100,03,05,20,+,#,000      | 6 (LL)          | 01 02 30 31
WN,100,05,#,20,+,3,x1,000    | 3 (FF)          | 02 03 24 25
WN,100,05,05,#,+,3,x1,000    | 4 (RR)          | 09 10 42 43
WN,100,05,05,20,+,#,x1,000   | 6 (nnn)         | - 0 8388607 8388608
WN,100,11,#,+5,x1,000        | 3 (FF)          | 01 02 30 31
WN,100,11,05,#,x1,000        | 4 (n)           | -8388608 -8388607 +8388607 +8388608
WN,100,12,#,+,x1,000         | 3 (FF)          | 01 02 30 31
WN,100,21,#,+5,x1,000        | 3 (FFFF)        | 0000 0001 4800 4801
WN,100,21,0224,#,x1,000      | 4 (n)           | -8388608 -8388607 +8388607 +8388608
WN,100,22,#,+,x1,000         | 3 (FFFF)        | 0000 0001 4800 4801
WN,100,31,#,20,+5,x1,000     | 3 (FFF)         | 029 030 240 241
WN,100,31,100,#,+5,x1,000    | 4 (RR)          | 09 10 42 43
WN,100,31,100,20,#,x1,000    | 5 (n)           | -8388608 -8388607 +8388607 +8388608
WN,100,32,#,20,+,x1,000      | 3 (FFF)         | 029 030 240 241
WN,100,32,100,#,+,x1,000     | 4 (RR)          | 09 10 42 43
WN,100,61,#,000              | 3 (nnn)         | 0 1 65535 65536
WN,100,62,#,000              | 3 (EEE)         | 099 100 230 231
WN,100,63,I0,1,#,000         | 5 (EEE)         | 099 100 230 231
WN,100,65,#,000              | 3 (nnn)         | - 0 8388607 8388608
WS,AD,#                      | 2 (value of AD) | - 0 47 48
WS,IN,#                      | 2 (value of IN) | - 0 3 4
WS,ES,#                      | 2 (value of ES) | - 0 1 2
WS,CM,#                      | 2 (value of CM) | - 0 1 2";

#[test]
fn one_beyond_each_limit_is_out_of_range() {
    for case in LIMITS.lines() {
        let parts: Vec<&str> = case.split('|').map(str::trim).collect();
        let [text, field, values] = parts[..] else { panic!("three parts: {case}") };
        let values: Vec<&str> = values.split(' ').collect();
        let [below, least, greatest, above] = values[..] else { panic!("four values: {case}") };
        for value in [least, greatest] {
            taken(&text.replace('#', value));
        }
        for value in [below, above].into_iter().filter(|value| *value != "-") {
            let range = format!("{value}, and {least} to {greatest} is taken");
            let sentence = format!("field {field} is out of range: {range}");
            rejected(&text.replace('#', value), &sentence);
        }
    }
}

/// Every code, with a place for its DDD, and the number of that field.
const NEXTS: [(&str, usize); 19] = [
    ("00,#", 3),
    ("01,05,20,+5,x1,#", 7),
    ("02,05,20,+,x1,#", 7),
    ("03,05,20,+,05,#", 7),
    ("05,05,20,+,3,x1,#", 8),
    ("11,05,+5,x1,#", 6),
    ("12,05,+,x1,#", 6),
    ("21,0224,+5,x1,#", 6),
    ("22,0224,+,x1,#", 6),
    ("31,100,20,+5,x1,#", 7),
    ("32,100,20,+,x1,#", 7),
    ("57,1,+5,#", 5),
    ("58,O0,1,#", 5),
    ("60,#", 3),
    ("61,5,#", 4),
    ("62,100,#", 4),
    ("63,I0,1,100,#", 6),
    ("65,5,#", 4),
    ("70,1,#", 4),
];

#[test]
fn the_next_cell_of_every_code_has_its_range() {
    for (cell, number) in NEXTS {
        let text = |next: &str| format!("WN,100,{}", cell.replace('#', next));
        for next in ["000", "100", "230"] {
            taken(&text(next));
        }
        for next in ["001", "099", "231", "999"] {
            let range = format!("{next}, and 000 or 100 to 230 is taken");
            rejected(&text(next), &format!("field {number} (DDD) is out of range: {range}"));
        }
    }
}

#[test]
fn positions_have_32_bits_signed() {
    let range = "and -2147483648 to +2147483647 is taken, 32 bits signed";
    for (text, field) in [("SA,#", "1 (nnn)"), ("SC,1,#", "2 (±nnn)"), ("SC,0,#", "2 (±nnn)")] {
        for value in ["-2147483648", "+2147483647", "-0"] {
            taken(&text.replace('#', value));
        }
        for value in ["-2147483649", "+2147483648", "+9999999999"] {
            let sentence = format!("field {field} is out of range: {value}, {range}");
            rejected(&text.replace('#', value), &sentence);
        }
    }
    taken("WN,100,57,0,-2147483648,000");
    rejected(
        "WN,100,57,0,-2147483649,000",
        &format!("field 4 (±nnn) is out of range: -2147483649, {range}"),
    );
    taken("SA,2147483647");
    rejected("SA,2147483648", &format!("field 1 (nnn) is out of range: 2147483648, {range}"));
}

#[test]
fn the_first_wrong_field_is_told() {
    rejected(
        "WN,231,01,25,20,500,x2,099",
        "field 1 (BBB) is out of range: 231, and 100 to 230 is taken",
    );
    rejected(
        "WN,100,01,25,20,500,x2,099",
        "field 3 (FF) is out of range: 25, and 03 to 24 is taken",
    );
    rejected(
        "WN,100,01,24,20,500,x2,099",
        "field 5 (n) is a sign and 1 to 10 digits, and 500 is not that",
    );
    rejected("WN,100,01,24,20,+500,x2,099", "field 6 (XX) is x1 or x4, and x2 is not that");
}

// 01: "(6) PS with input EE on: `AAN`", after (5).
#[test]
fn ps_with_input_ee_on_is_told_after_its_field() {
    let mut drive = fresh();
    drive.inputs(1024).expect("a word of 11 bits");
    let reason = |sentence: &str| Explanation::Rejected(sentence.to_string());
    assert_eq!(
        said(&mut drive, "PS,100"),
        reason("input EE is on, and PS is taken with EE off only")
    );
    assert_eq!(
        said(&mut drive, "PS,231"),
        reason("field 1 (BBB) is out of range: 231, and 100 to 230 is taken")
    );
    assert_eq!(said(&mut drive, "EE"), Explanation::Taken);
}

// ---- silence

fn silent(drive: &mut Drive, string: &[u8], sentence: &str) {
    let expected = Explanation::Silent(sentence.to_string());
    assert_eq!(given(drive, string), expected, "{:?}", String::from_utf8_lossy(string));
}

#[test]
fn what_is_no_string_for_this_drive_is_told() {
    let address = "the first two characters are not digits: \
                   a string begins with the drive's address, 00";
    let cases: [(&[u8], &str); 9] = [
        (b"", "the string is empty"),
        (b"\r", "the string is empty"),
        (b"00QA", "the last byte is not 13, which ends a string"),
        (b"00QA\r\n", "the last byte is not 13, which ends a string"),
        (b"0\r", address),
        (b"QA\r", address),
        (b"\n00QA\r", address),
        (b"07QA\r", "the string is for address 07, and this drive has 00"),
        (b"48\r", "the string is for address 48, and this drive has 00"),
    ];
    for (string, sentence) in cases {
        silent(&mut fresh(), string, sentence);
    }
    let mut other = Drive::fresh(31).expect("01 takes address 31");
    silent(&mut other, b"00QA\r", "the string is for address 00, and this drive has 31");
    silent(&mut other, b"QA\r", &address.replace("00", "31"));
}

#[test]
fn address_99_is_told_whether_it_was_carried_out_or_not() {
    let mut drive = fresh();
    silent(&mut drive, b"99WS,IN,2\r", "carried out; address 99 is never answered");
    assert_eq!(drive.presets.current, 2);
    silent(
        &mut drive,
        b"99WS,IN,4\r",
        "field 2 (value of IN) is out of range: 4, and 0 to 3 is taken; \
         address 99 is never answered",
    );
    assert_eq!(drive.presets.current, 2);
    let alone =
        "address 99 is for all drives, which carry out WS, EE and ES alone and never answer";
    silent(&mut drive, b"99QA\r", alone);
    silent(&mut drive, b"99\r", alone);
}

/// A drive with these cells from 100 on, started there and given so many milliseconds.
fn started(cells: &[&str], milliseconds: usize) -> Drive {
    let mut drive = fresh();
    for (address, cell) in (100..).zip(cells) {
        assert_eq!(said(&mut drive, &format!("WN,{address},{cell}")), Explanation::Taken);
    }
    assert_eq!(said(&mut drive, "PS,100"), Explanation::Taken);
    (0..milliseconds).for_each(|_| drive.millisecond().expect("the drive is sound"));
    drive
}

fn busy_with(mut drive: Drive, occupation: &str) {
    let sentence = format!("the drive is busy with {occupation}, and hears only EE and ES");
    silent(&mut drive, b"00QA\r", &sentence);
    silent(&mut drive, b"99WS,IN,2\r", &sentence);
}

#[test]
fn a_busy_drive_is_told_with_what_it_is_busy() {
    let delay = ["00,101", "65,3000,102", "00,000"];
    busy_with(started(&delay, 0), "cell 100 (not yet taken)");
    busy_with(started(&delay, 2), "cell 101 (delay, 3000 ms left)");
    busy_with(started(&delay, 3), "cell 101 (delay, 2999 ms left)");
    busy_with(started(&delay, 3002), "cell 102 (not yet taken)");
    let mut run = started(&["01,05,20,+5,x1,000"], 1);
    busy_with(run, "a run at cell 100");
    assert_eq!(said(&mut run, "EE"), Explanation::Taken);
    busy_with(run, "a run at cell 100 (emergency slowing)");
    let mut free = started(&["02,05,20,+,x1,000"], 1);
    assert_eq!(said(&mut free, "ES"), Explanation::Taken);
    busy_with(free, "a run at cell 100 (slowing)");
    let mut delayed = started(&["05,05,20,+,9,x1,000"], 1);
    delayed.at_speed().expect("a ramp run");
    assert_eq!(said(&mut delayed, "ES"), Explanation::Taken);
    busy_with(delayed, "a run at cell 100 (braking)");
    let mut search = started(&["03,05,20,+,05,000"], 0);
    search.inputs(8).expect("a word of 11 bits");
    search.millisecond().expect("the drive is sound");
    busy_with(search, "a run at cell 100 (back)");
}

#[test]
fn a_busy_drive_says_what_is_wrong_with_a_stop() {
    let mut drive = started(&["00,000"], 0);
    let sentence = "EE takes no field, and the string has 1";
    assert_eq!(said(&mut drive, "EE,1"), Explanation::Rejected(sentence.to_string()));
}

#[test]
fn an_unsound_drive_is_refused_by_2() {
    let mut drive = fresh();
    drive.presets.current = 4;
    assert_eq!(drive.explain(b"00QA\r"), Err(2));
}
