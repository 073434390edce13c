//! Points A1 to A16: which strings are heard, which are accepted, and what is read back.

use crate::lists::list;
use crate::{all_accepted, all_rejected, reads_back};
use reference::memory::Drive;

// A1: "busy + over 64 bytes + code not EE/ES: silent (3 before 5), not N"
#[test]
fn an_overlong_string_to_a_busy_drive_is_silent() {
    let zeros = "0".repeat(70);
    list(&format!("s 00PS,100; s 00QA{zeros} = silent; W 9 = idle 1"));
    list(&format!("s 00QA{zeros} = 00N; s 99EE{zeros} = silent; s 05QA{zeros} = silent"));
}

// A1: "busy + bytes 3,4 = EE/ES + anything wrong after: passes (3), fails (5): `00N`, no effect,
// program goes on"
#[test]
fn a_malformed_stop_to_a_busy_drive_gets_n() {
    let zeros = "0".repeat(70);
    list(&format!(
        "s 00PS,100; s 00EE, = 00N; s 00ESX = 00N; s 00EE{zeros} = 00N; s 00QA = silent; \
         W 9 = idle 1"
    ));
    list("s 00PS,100; s 99EE, = silent; s 99ESX = silent; W 9 = idle 1; s 00QR = 00QR,000");
}

// A1: "idle + `00`, `00Q`, `00E`: unknown code, `00N`; busy: silent"
#[test]
fn a_string_without_a_whole_code_is_unknown() {
    list("s 00 = 00N; s 00Q = 00N; s 00E = 00N");
    list("s 00PS,100; s 00 = silent; s 00Q = silent; s 00E = silent; W 9 = idle 1");
}

// A1: "`99` + malformed EE/WS: never answered, no effect. `99PS`, `99WN`, `99SA`...: silent without
// effect"
#[test]
fn a_broadcast_of_another_code_has_no_effect() {
    let texts = [
        "EE,",
        "WS",
        "WS,IN,4",
        "PS,100",
        "WN,100,65,5,000",
        "SA,5",
        "SO,O0,1",
        "SC,1,+5",
        "QA",
        "",
        "W",
        "99EE",
    ];
    for text in texts {
        assert_eq!(list(&format!("s 99{text} = silent")), Drive::fresh(0).unwrap(), "{text}");
    }
}

// 01: "(4) for 99, code not WS, EE, ES: silent"; "Address 99 is never answered."
#[test]
fn a_broadcast_of_ws_ee_or_es_acts_silently() {
    list(
        "s 99WS,IN,3 = silent; s 00QS,IN = 00QS,IN,3; s 99WS,AD,7 = silent; s 07QA = 07QA,+0; \
         s 00QA = silent",
    );
    list("s 00PS,100; s 99EE = silent; s 00QR = 00QR,100,+0,0");
    list(
        "s 00WN,100,12,02,+,x1,000; s 00PS,100; M; s 99ES = silent; B = stand:1,0,0; \
         s 00QA = 00QA,+0",
    );
}

// A1: "refusal 2 then 3 come before (1)"
#[test]
fn refusals_come_before_the_checks_of_a_string() {
    let mut drive = Drive::fresh(0).unwrap();
    assert_eq!(drive.string(b"", &mut [0; 10]), Err(3));
    drive.presets.address = 48;
    assert_eq!(drive.string(b"", &mut [0; 10]), Err(2));
}

// A2: "zero bytes. The string that is only byte 13 is silent by (2)"; 01: "(1) empty, or last byte
// not 13: silent"
#[test]
fn a_string_without_its_end_or_address_is_silent() {
    let strings: [&[u8]; 10] = [
        b"",
        b"\r",
        b"0\r",
        b"00QA",
        b"00SA,5\n",
        b"00SA,5\r\n",
        b"x0QA\r",
        b"0xQA\r",
        b" 0QA\r",
        b"48QA\r",
    ];
    for bytes in strings {
        let mut drive = Drive::fresh(0).unwrap();
        assert_eq!(drive.string(bytes, &mut [0; 64]), Ok(None), "{bytes:?}");
        assert_eq!(drive, Drive::fresh(0).unwrap());
    }
}

// A3: "one string, the inner 13 is a wrong byte in a field: `00N`"
#[test]
fn a_13_inside_a_string_is_a_wrong_byte() {
    list("s 00QA\r00QA = 00N; s 00SA,5\r = 00N; s 00QA = 00QA,+0");
}

// A4: "exact: AA BBB CC FF RR FFF FFFF LL DDD EEE V S"
#[test]
fn fixed_fields_have_exactly_their_digits() {
    all_rejected("SO,O0,01 SO,O0, SC,00 SC,01,+5 PS,0100 PS,10 QM,0100 QM,10");
    all_rejected("WN,0100,00,000 WN,100,0,000 WN,100,000,000 WN,100,00,0 WN,100,00,0000");
    all_rejected("WN,100,01,3,20,+1,x1,000 WN,100,01,003,20,+1,x1,000 WN,100,01,03,020,+1,x1,000");
    all_rejected("WN,100,31,30,20,+1,x1,000 WN,100,31,0030,20,+1,x1,000 WN,100,03,10,20,+,5,000");
    all_rejected("WN,100,21,224,+1,x1,000 WN,100,21,00224,+1,x1,000 WN,100,22,224,+,x1,000");
    all_rejected("WN,100,62,0100,000 WN,100,63,I0,01,100,000 WN,100,70,01,000 WN,100,58,O0,01,000");
}

// A4: "nnn (1..10, leading zeros, 11 digits is N even if the value fits)"
#[test]
fn free_numbers_have_1_to_10_digits() {
    all_accepted("WS,AD,0000000005 WS,ES,01 WS,IN,0000000003 WS,CM,0000000001 SA,0000000005");
    all_accepted("WN,100,65,0400,000 WN,100,61,0000000001,000 WN,100,11,05,+0000000007,x1,000");
    all_accepted(
        "WN,100,05,10,20,+,0000000000,x1,000 WN,100,57,1,-0000000001,000 SC,1,+0000000001",
    );
    all_rejected("WS,AD,00000000005 WS,ES,00000000001 SA,00000000005 SC,1,+00000000001");
    all_rejected(
        "WN,100,65,00000000400,000 WN,100,61,00000000001,000 WN,100,11,05,+00000000007,x1,000",
    );
    all_rejected("WS,AD, SA, SA,+ SC,1,+ SC,1, WN,100,65,,000 WN,100,11,05,+,x1,000");
}

// A4: "A 10 digit value above 32 bits must be seen as out of range, not wrapped"
#[test]
fn numbers_above_32_bits_are_not_wrapped() {
    all_rejected("SA,4294967297 SA,-4294967295 SC,1,+4294967297 WN,100,57,1,+4294967297,000");
    all_rejected(
        "WS,AD,4294967296 WS,ES,4294967296 WN,100,65,4294967296,000 WN,100,61,4294967297,000",
    );
    all_rejected(
        "WN,100,11,05,+4294967297,x1,000 WN,100,05,10,20,+,4294967296,x1,000 SA,9999999999",
    );
}

// 01, "Strings" and "Instructions": the ends of every range, and one beyond.
#[test]
fn ranges_of_commands_end_where_01_says() {
    all_accepted("SA,2147483647 SA,-2147483648 SC,1,+2147483647 SC,1,-2147483648 WS,AD,47 WS,IN,3");
    all_rejected("SA,2147483648 SA,-2147483649 SC,1,+2147483648 SC,1,-2147483649 WS,AD,48 WS,IN,4");
    all_rejected("WS,ES,2 WS,CM,2 WS,RS,D4 WS,RS,B4 WS,RS,C0 WS,RS,0 SO,O0,2 SC,2,+0");
}

/// A cell at the ends of its ranges, and cells that are out of one range, all without their next.
const CELLS: [(&str, &str); 12] = [
    ("01,03,10,+8388607,x1", "01,02,10,+1,x1 01,25,10,+1,x1 01,03,09,+1,x1 01,03,43,+1,x1"),
    ("31,240,42,-8388607,x4", "31,029,10,+1,x1 31,241,10,+1,x1 31,030,10,+8388608,x1"),
    ("31,030,10,+8388607,x4", "31,030,10,-8388608,x1 31,030,43,+1,x1 31,030,09,+1,x1"),
    ("11,30,+0,x1", "11,01,+0,x1 11,31,+0,x1 11,30,+0,x2 11,30,+0,4"),
    ("21,4800,+0,x1", "21,0000,+0,x1 21,4801,+0,x1 21,4800,+8388608,x1 22,4801,+,x1"),
    ("03,24,42,-,30", "03,25,42,-,30 03,24,43,-,30 03,24,42,-,31 03,24,42,-,01"),
    ("05,24,42,-,8388607,x4", "05,24,42,-,8388608,x4 05,25,42,-,1,x4 05,24,42,0,1,x4"),
    ("61,65535", "61,65536 61,0 61,00 61,"),
    ("65,8388607", "65,8388608 65, 65,-1 65,8388607,0"),
    ("62,230", "62,231 62,099 62,000 62,"),
    ("63,F7,1,100", "63,F8,1,100 63,I3,1,100 63,S4,1,100 63,F7,1,000"),
    ("58,F7,1", "58,F8,1 58,O4,1 58,CU,1 58,F7,2"),
];

#[test]
fn ranges_of_cells_end_where_01_says() {
    for (inside, outside) in CELLS {
        all_accepted(&format!("WN,100,{inside},230"));
        all_rejected(&format!("WN,100,{inside},231 WN,100,{inside},099 WN,100,{inside}"));
        for row in outside.split(' ') {
            all_rejected(&format!("WN,100,{row},000"));
        }
    }
    all_rejected("WN,100,70,2,000 WN,100,70,,000 WN,100,70,000 WN,100,70,1,1,000");
}

// 01, "Instructions": code 63 looks at I0 to I2, PX, S0 to S3, F0 to F7, and not at ST, ES, EE or
// an output.
#[test]
fn a_condition_is_one_of_sixteen_inputs_and_flags() {
    for name in ["ST", "ES", "EE", "O0", "FC", "CU"] {
        all_rejected(&format!("WN,100,63,{name},1,100,000"));
    }
    for name in ["I0", "I1", "I2", "PX", "S0", "S1", "S2", "S3"] {
        let jump = format!(
            "s 00WN,100,63,{name},1,102,101; s 00WN,101,58,O0,1,000; s 00WN,102,58,O1,1,000; \
             s 00PS,100"
        );
        list(&format!(
            "i {name}; {jump}; W 9 = idle 2; s 00QO,O1 = 00QO,O1,1; s 00QO,O0 = 00QO,O0,0"
        ));
        list(&format!("{jump}; W 9 = idle 2; s 00QO,O1 = 00QO,O1,0; s 00QO,O0 = 00QO,O0,1"));
    }
    list(
        "s 00SO,F6,1; s 00WN,100,63,F6,0,102,101; s 00WN,101,58,O0,1,000; s 00PS,100; W 9; \
         s 00QO,O0 = 00QO,O0,1",
    );
}

// A5: "n, 57, SC need a sign, `s` is one bare sign; SA's sign is optional; every other nnn takes
// none"
#[test]
fn signs_stand_where_they_must_and_nowhere_else() {
    all_rejected("WN,100,65,+5,000 WN,100,05,10,20,+,+3,x1,000 WN,100,61,+5,000 WS,IN,+1 WS,AD,-0");
    all_rejected("WN,100,11,05,3,x1,000 WN,100,01,10,20,3,x1,000 WN,100,57,1,5,000 SC,1,5");
    all_rejected("WN,100,11,05,33,x1,000 WN,100,31,100,20,33,x1,000 WN,100,57,1,55,000 SC,1,55");
    all_rejected(
        "WN,100,12,02,,x1,000 WN,100,12,02,+0,x1,000 WN,100,12,02,++,x1,000 SA,+-5 SA,--5",
    );
    list("s 00SA,5; s 00QA = 00QA,+5; s 00SA,+6; s 00QA = 00QA,+6; s 00SA,-7; s 00QA = 00QA,-7");
}

// A5: "`-0`, `-000` store zero, printed `+0`; `SA,-0` is 0"
#[test]
fn minus_zero_is_zero() {
    list("s 00SA,5; s 00SA,-0; s 00QA = 00QA,+0; s 00SC,1,-000; s 00QC = 00QC,1,+0");
    reads_back("11,05,-0,x1,000", "11,05,+0,x1,000");
    reads_back("57,1,-000,000", "57,1,+0,000");
}

// A6: "`SC,0` Y; `SC,0,` N; `SC,0,+5` Y, cam unset with position 0 (a number given is still
// checked); `SC,1` N"
#[test]
fn the_cam_is_unset_with_or_without_a_number() {
    list("s 00SC,1,+9; s 00QC = 00QC,1,+9; s 00SC,0; s 00QC = 00QC,0");
    let drive = list("s 00SC,1,+9; s 00SC,0,+5; s 00QC = 00QC,0");
    assert_eq!(drive, Drive::fresh(0).unwrap());
    all_rejected("SC,0, SC,0,5 SC,0,+2147483648 SC,1 SC,1, SC SC, SC,0,+5,");
    all_rejected("WN,100,57,0,000 WN,100,57,0,,000 WN,100,57,0,+2147483648,000 WN,100,57,0,5,000");
}

// A7: "OO as in 58 (O0-O3, FC, F0-F7). CU, BS, FA: N." and "QO,name: those, CU, BS (0), FA (1)"
#[test]
fn outputs_are_set_and_asked_by_name() {
    for name in ["O0", "O1", "O2", "O3", "FC", "F0", "F1", "F2", "F3", "F4", "F5", "F6", "F7"] {
        list(&format!(
            "s 00QO,{name} = 00QO,{name},0; s 00SO,{name},1; s 00QO,{name} = 00QO,{name},1; \
             s 00SO,{name},0; s 00QO,{name} = 00QO,{name},0"
        ));
        list(&format!("s 00WN,100,58,{name},1,000; s 00PS,100; M; s 00QO,{name} = 00QO,{name},1"));
    }
    all_rejected("SO,CU,1 SO,BS,0 SO,FA,1 QO,I0 QO, QO QI,O0 QI,F0 QS,EQ QS,RD");
    list("s 00QO,CU = 00QO,CU,0; s 00QO,BS = 00QO,BS,0; s 00QO,FA = 00QO,FA,1");
    list("s 00WN,100,70,1,000; s 00PS,100; M; s 00QO,CU = 00QO,CU,1; B = stand:1,1,0");
}

#[test]
fn inputs_are_asked_by_name() {
    for name in ["I0", "I1", "I2", "PX", "S0", "S1", "S2", "S3", "ES", "EE"] {
        list(&format!(
            "s 00QI,{name} = 00QI,{name},0; i {name}; s 00QI,{name} = 00QI,{name},1; i 0; \
             s 00QI,{name} = 00QI,{name},0"
        ));
    }
    list("i ST; M; s 00QI,ST = 00QI,ST,1; i 0; s 00QI,ST = 00QI,ST,0");
}

// A8: "`00QS,AD,0`, `05QS,AD,5` (not `05`)"; 01: the first values of the presets.
#[test]
fn presets_print_without_leading_zeros() {
    list("s 00QS,AD = 00QS,AD,0; F 5; s 05QS,AD = 05QS,AD,5");
    list(
        "s 00QS,IN = 00QS,IN,1; s 00QS,RS = 00QS,RS,D2; s 00QS,ES = 00QS,ES,0; \
         s 00QS,CM = 00QS,CM,0",
    );
    for resolution in ["D0", "D1", "D2", "D3", "B0", "B1", "B2", "B3"] {
        list(&format!("s 00WS,RS,{resolution}; s 00QS,RS = 00QS,RS,{resolution}"));
    }
}

// A9: "FF, RR, FFF, FFFF, LL, codes, cells print with their exact width; only nnn loses zeros"
#[test]
fn fixed_fields_keep_their_width_when_printed() {
    reads_back("22,0007,+,x1,000", "22,0007,+,x1,000");
    reads_back("31,030,10,-0012,X1,100", "31,030,10,-12,x1,100");
    reads_back("01,03,10,+00,X4,000", "01,03,10,+0,x4,000");
    reads_back("03,09,42,-,02,000", "03,09,42,-,02,000");
    reads_back("05,09,42,-,0003,X1,000", "05,09,42,-,3,x1,000");
    reads_back("61,0003,000", "61,3,000");
    reads_back("65,0000,000", "65,0,000");
    reads_back("63,S3,0,101,000", "63,S3,0,101,000");
}

// A10: "`WN,220,69` only. `WN,220,69,` and `WN,220,69,000` are N. QM: `00QM,220,69`."
#[test]
fn a_69_has_no_next_cell() {
    list("s 00WN,220,69; s 00QM,220 = 00QM,220,69");
    all_rejected("WN,220,69, WN,220,69,000 WN,220,69,100");
}

// A11: "names and codes are case-sensitive; only XX may be X. Busy + `00ee`: silent."
#[test]
fn lower_case_is_taken_for_xx_alone() {
    all_rejected("qa Qa WS,rs,D2 WS,RS,d2 SO,o0,1 QO,o0 QI,px wn,100,00,000 ee es");
    list("s 00PS,100; s 00ee = silent; s 00Ee = silent; W 9 = idle 1");
}

// A12: "WS takes exactly two fields; `WS,CM,0,` and kkk are N; `WS,CM,2,..` N. EQ, RD, CY, CN, RA:
// N."
#[test]
fn what_01_leaves_out_gets_n() {
    all_rejected("WS,CM,0, WS,CM,0,5 WS,CM,2,100 WS,EQ,0 WS,RD,98 CY CN RA WS WS,AD");
    all_rejected("WN,100,04,000 WN,100,59,000 WN,100,66,000 WN,100,71,000 QX Q QA, EE, QR,0");
}

// A14: "(6) is judged on the stored input EE; PS with input ES on is Y (a free run is then passed
// over). PS does not look at preset ES."
#[test]
fn a_start_by_string_looks_at_input_ee_alone() {
    list("i EE; s 00PS,100 = 00N; s 00QA = 00QA,+0; s 00PS,231 = 00N; i 0; s 00PS,100");
    list("i ES; s 00WN,100,12,02,+,x1,000; s 00PS,100; W 9 = idle 1; s 00QA = 00QA,+0");
    list("s 00WS,ES,1; i ES; s 00PS,100; W 9 = idle 1");
    list("i EE; s 00WN,100,65,5,000; s 00SA,5; s 00EE; s 00WS,CM,1");
}

// A15: "ES string on idle, waiting, delay, or a run it does not stop: `00Y`, no effect; likewise EE
// on idle."
#[test]
fn a_stop_with_nothing_to_stop_is_answered_y() {
    assert_eq!(list("s 00ES; s 00EE; s 99EE = silent; s 99ES = silent"), Drive::fresh(0).unwrap());
    list("s 00PS,100; s 00ES; W 9 = idle 1");
    list("s 00WN,100,65,5,000; s 00PS,100; M; s 00ES; W 9 = idle 5");
    list("s 00WN,100,01,10,20,+5,x1,000; s 00PS,100; M; s 00ES; B = run:+,10000,20,+5,1,0,0");
}

// A16: "`s 00WS,AD,5` -> `00Y`, then only 05 and 99 are heard"
#[test]
fn a_new_address_is_answered_with_the_old() {
    list(
        "s 00WS,AD,5 = 00Y; s 00QA = silent; s 05QA = 05QA,+0; s 99WS,AD,0 = silent; \
         s 00QA = 00QA,+0",
    );
}
