//! The examples of chapters 3, 4 and 5 of the maker's manual that are in 01's scope, named by their
//! paragraphs. Where 01 changes the manual's form or rule, the test says so and holds 01's. Full
//! stops and arrows at the end of the printed strings stand for byte 13. The notation is that of
//! `common/lists.rs`.

#[path = "common/lists.rs"]
mod lists;

use lists::list;

/// A string that is stored, and the answer that shows it again.
fn stored(string: &str, answer: &str) {
    let address = &string[..2];
    let cell = &string[5..8];
    list(&format!("F {address}; s {string}; s {address}QM,{cell} = {answer}"));
}

// ---- 3, serial communication management

#[test]
fn p3_example_1_stored_instruction_execution() {
    assert_eq!("00PS,100\r".len(), 9);
    list("s 00PS,100 = 00Y");
}

#[test]
fn p3_example_2_memory_storing() {
    assert_eq!("00WN,100,01,10,18,+10000,x1,000\r".len(), 32);
    list("s 00WN,100,01,10,18,+10000,x1,000 = 00Y; s 00PS,100; M; B = run:+,10000,18,+10000,1,0,0");
}

#[test]
fn p3_example_3_content_of_a_memory_cell() {
    assert_eq!("00QM,140,01,05,15,+100000,x1,141\r".len(), 33);
    stored("00WN,140,01,05,15,+100000,x1,141", "00QM,140,01,05,15,+100000,x1,141");
}

#[test]
fn p3_example_4_absolute_position() {
    assert_eq!("08QA,+10854000\r".len(), 15);
    list("F 8; s 08QA = 08QA,+0; s 08SA,10854000; s 08QA = 08QA,+10854000");
}

// "If the control system transmits a command or an instruction to a busy drive .. the drive gives
// no answer unless the transmitted command is a STOP command (EE or ES code)"
#[test]
fn p3_a_busy_drive_answers_stops_alone() {
    list(
        "s 00PS,100; s 00PS,100 = silent; s 00QA = silent; s 00WN,100,00,000 = silent; \
         s 00ES = 00Y; s 00EE = 00Y",
    );
}

// ---- 4.1, instructions

#[test]
fn p4_1_1_indexed_run_with_ramp() {
    stored("07WN,156,01,09,15,+31754,x1,121", "07QM,156,01,09,15,+31754,x1,121");
    list(
        "F 7; s 07WN,156,01,09,15,+31754,x1,121; s 07WN,121,58,O0,1,000; s 07PS,156; M; \
         B = run:+,9000,15,+31754,1,0,0; A; P 31754; M; s 07QA = 07QA,+31754; \
         s 07QO,O0 = 07QO,O0,1",
    );
}

// "at the receiving of the stop command the drive begins the deceleration ramp"
#[test]
fn p4_1_1_an_emergency_stop_begins_the_deceleration_ramp() {
    list(
        "F 7; s 07WN,156,01,09,15,+31754,x1,121; s 07PS,156; M; P 5; s 07EE; B = slow:1,0,0; P; \
         H; s 07QA = 07QA,+6",
    );
}

#[test]
fn p4_1_2_high_resolution_indexed_run_with_ramp() {
    stored("07WN,156,31,091,15,+31754,x1,121", "07QM,156,31,091,15,+31754,x1,121");
    list("F 7; s 07WN,156,31,091,15,+31754,x1,121; s 07PS,156; M; B = run:+,9100,15,+31754,1,0,0");
}

#[test]
fn p4_1_3_free_run_with_ramp() {
    stored("03WN,140,02,10,18,+,x1,210", "03QM,140,02,10,18,+,x1,210");
    list(
        "F 3; s 03WN,140,02,10,18,+,x1,210; s 03WN,210,58,O0,1,000; s 03PS,140; M; \
         B = run:+,10000,18,+0,1,0,0; \
         P 9; s 03ES; B = slow:1,0,0; H; M; s 03QO,O0 = 03QO,O0,1; s 03QA = 03QA,+9",
    );
}

#[test]
fn p4_1_4_high_resolution_free_run_with_ramp() {
    stored("03WN,140,32,113,18,+,x1,210", "03QM,140,32,113,18,+,x1,210");
    list("F 3; s 03WN,140,32,113,18,+,x1,210; s 03PS,140; M; B = run:+,11300,18,+0,1,0,0");
}

#[test]
fn p4_1_5_indexed_run_without_ramp() {
    stored("08WN,122,11,02,+1246,x4,188", "08QM,122,11,02,+1246,x4,188");
    list(
        "F 8; s 08WN,122,11,02,+1246,x4,188; s 08PS,122; M; B = run:+,800,0,+4984,1,0,0; \
         P 4984; M; s 08QA = 08QA,+4984",
    );
}

// 01's table in place of Table 4: 224 Hz is a value of it, where Table 4 would give 220.
#[test]
fn p4_1_6_high_resolution_indexed_run_without_ramp() {
    stored("08WN,122,21,0224,+1246,x4,188", "08QM,122,21,0224,+1246,x4,188");
    list("F 8; s 08WN,122,21,0224,+1246,x4,188; s 08PS,122; M; B = run:+,896,0,+4984,1,0,0");
}

// The example is printed with a space behind the sign, `+ ,x4`. 01 takes no spaces: N.
#[test]
fn p4_1_7_free_run_without_ramp() {
    list("F 2; s 02WN,176,12,22,+_,x4,133 = 02N; s 02QM,176 = 02QM,176,00,000");
    stored("02WN,176,12,22,+,x4,133", "02QM,176,12,22,+,x4,133");
    list(
        "F 2; s 02WN,176,12,22,+,x4,133; s 02PS,176; M; B = run:+,8800,0,+0,1,0,0; s 02ES; M; \
         s 02QA = 02QA,+0",
    );
}

// 01's table in place of Table 4: 2200 Hz is stored as 2181, where Table 4 has 2200. "Reading again
// memory cell .. the real frequency of the drive is shown."
#[test]
fn p4_1_8_high_resolution_free_run_without_ramp() {
    stored("02WN,176,22,2200,+,x4,133", "02QM,176,22,2181,+,x4,133");
    list("F 2; s 02WN,176,22,2200,+,x4,133; s 02PS,176; M; B = run:+,8724,0,+0,1,0,0");
}

#[test]
fn p4_1_9_zero_search_procedure() {
    stored("11WN,146,03,20,10,+,05,182", "11QM,146,03,20,10,+,05,182");
    list(
        "F 11; s 11WN,146,03,20,10,+,05,182; s 11WN,182,60,000; s 11PS,146; M; \
         B = run:+,20000,10,+0,1,0,0; A; P 50; \
         i PX; B = slow:1,0,0; P 7; H; B = run:-,500,0,+0,1,0,0; P 5; i 0; M; s 11QA = 11QA,+0",
    );
}

// The example is printed with a space after a comma. 01 takes no spaces: N.
#[test]
fn p4_1_10_electronic_cam_setting() {
    list("F 6; s 06WN,177,57,1,+13000,_191 = 06N");
    stored("06WN,177,57,1,+13000,191", "06QM,177,57,1,+13000,191");
    list("F 6; s 06WN,177,57,1,+13000,191; s 06PS,177; W 9 = idle 2; s 06QC = 06QC,1,+13000");
}

// "When set position is reached electronic cam function is automatically disabled"; "O3 must be set
// with a suitable value before"
#[test]
fn p4_1_10_notes_1_and_2_the_cam_complements_o3_once() {
    list(
        "F 6; s 06SO,O3,1; s 06WN,177,57,1,+13000,191; s 06WN,191,11,30,+13001,x1,192; \
         s 06WN,192,11,30,-13001,x1,000; \
         s 06PS,177; M 2; P 13001; M; P 13001; s 06QO,O3 = 06QO,O3,0; s 06QC = 06QC,0; \
         s 06QA = 06QA,+0",
    );
}

#[test]
fn p4_1_11_hardware_output_setting() {
    stored("06WN,170,58,O1,1,194", "06QM,170,58,O1,1,194");
    list("F 6; s 06WN,170,58,O1,1,194; s 06PS,170; W 9 = idle 2; s 06QO,O1 = 06QO,O1,1");
}

// "The outputs FA and BS .. can not be modified"
#[test]
fn p4_1_11_note_1_fa_and_bs_can_not_be_set() {
    list(
        "F 6; s 06WN,170,58,FA,1,194 = 06N; s 06WN,170,58,BS,1,194 = 06N; \
         s 06WN,170,58,FC,1,194; s 06WN,170,58,F7,1,194",
    );
}

// "Maximum allowed time delay is 65535 milliseconds." 02 takes 8,388,607.
#[test]
fn p4_1_12_time_delay() {
    stored("12WN,120,65,4000,192", "12QM,120,65,4000,192");
    list(
        "F 12; s 12WN,120,65,4000,192; s 12WN,192,58,FC,1,000; s 12PS,120; W 4001 = spent 4001; \
         B = stand:1,0,0; M; B = stand:1,0,1",
    );
    list(
        "s 00WN,100,65,65535,000; s 00WN,100,65,65536,000; s 00WN,100,65,8388607,000; \
         s 00WN,100,65,8388608,000 = 00N",
    );
}

#[test]
fn p4_1_13_null() {
    stored("15WN,135,00,196", "15QM,135,00,196");
    list(
        "F 15; s 15WN,135,00,196; s 15WN,196,58,O0,1,000; s 15PS,135; W 9 = idle 2; \
         s 15QO,O0 = 15QO,O0,1",
    );
}

// "Null instruction can be used to do a reset of a memory cell"
#[test]
fn p4_1_13_note_a_null_resets_a_cell() {
    list("s 00WN,130,61,3,130; s 00WN,130,00,000; s 00QM,130 = 00QM,130,00,000");
}

// "as a consequence of the selection of the hardware inputs corresponding to memory cell number
// 100, the program passes to the instruction in memory cell number 116"
#[test]
fn p4_1_13_note_a_null_forwards_the_hardware_selection() {
    list("s 00WN,100,00,116; s 00WN,116,58,O2,1,000; i ST; W 9 = idle 2; s 00QO,O2 = 00QO,O2,1");
}

#[test]
fn p4_1_14_conditional_jump() {
    stored("00WN,180,63,I1,0,130,155", "00QM,180,63,I1,0,130,155");
    let jump = "s 00WN,180,63,I1,0,130,155; s 00WN,130,58,O0,1,000; s 00WN,155,58,O1,1,000";
    list(&format!("{jump}; s 00PS,180; W 9; s 00QO,O0 = 00QO,O0,1; s 00QO,O1 = 00QO,O1,0"));
    list(&format!("{jump}; i I1; s 00PS,180; W 9; s 00QO,O0 = 00QO,O0,0; s 00QO,O1 = 00QO,O1,1"));
}

// "the user can obtain loops whose end condition is the change of an hardware input logic value"
#[test]
fn p4_1_14_note_a_jump_to_itself_waits_for_an_input() {
    list("s 00WN,180,63,I1,0,180,000; s 00PS,180; W 500 = spent 500; i I1; W 500 = idle 1");
}

// Printed as `14WN,220,69,`. 01: "Code 69 has no DDD, and its string ends after the 69."
#[test]
fn p4_1_15_interrupted_program_recovery() {
    list("F 14; s 14WN,220,69, = 14N; s 14WN,220,69; s 14QM,220 = 14QM,220,69");
    list(
        "F 14; s 14WN,220,69; s 14WN,100,11,05,+1000,x1,000; s 14PS,100; M; P 400; s 14EE; \
         s 14QA = 14QA,+400; \
         s 14PS,220; M; B = run:+,500,0,+600,1,0,0; P 600; s 14QA = 14QA,+1000",
    );
}

// "if many instructions have been stopped, only the last one will be ended. If nothing is stored in
// the RAM memory, the Recovery instruction ends the program"
#[test]
fn p4_1_15_note_only_the_last_stop_is_recovered() {
    list(
        "F 14; s 14WN,220,69; s 14WN,100,65,50,000; s 14WN,101,11,05,+9,x1,000; s 14PS,100; M; \
         s 14EE; s 14PS,101; M; \
         P 2; s 14EE; s 14PS,220; M; P 7; s 14QA = 14QA,+9; s 14PS,220; W 9 = idle 1; \
         s 14QA = 14QA,+9",
    );
}

// Printed with a comma at the end, which 01's form hasn't.
#[test]
fn p4_1_16_delayed_stop() {
    list("F 1; s 01WN,165,05,10,20,+,3000,x1,205, = 01N");
    stored("01WN,165,05,10,20,+,3000,x1,205", "01QM,165,05,10,20,+,3000,x1,205");
    list(
        "F 1; s 01WN,165,05,10,20,+,3000,x1,205; s 01WN,205,58,O0,1,000; s 01PS,165; M; \
         B = run:+,10000,20,+0,1,0,0; \
         P 100; A; P 50; i ES; B = run:+,10000,20,+3000,1,0,0; P 3000; M; s 01QA = 01QA,+3150; \
         s 01QO,O0 = 01QO,O0,1",
    );
}

// "If the selected number of steps is 0 .., the motor covers one step"
#[test]
fn p4_1_16_note_2_no_steps_are_one_step() {
    list("s 00WN,165,05,10,20,-,0,x1,000; s 00PS,165; M; A; i ES; P; s 00QA = 00QA,-1");
}

// "For the instruction Delayed stop, the instruction Recovery of an interrupted program is not
// available."
#[test]
fn p4_1_16_note_3_a_delayed_stop_is_not_recovered() {
    list(
        "s 00WN,165,05,10,20,+,3,x1,000; s 00WN,220,69; s 00PS,165; M; A; s 00EE; H; \
         s 00PS,220; W 9 = idle 1; s 00QA = 00QA,+0",
    );
}

// "Free run STOP is ignored during the execution of the acceleration ramp."
#[test]
fn p4_1_16_note_4_a_stop_while_accelerating_is_ignored() {
    list(
        "s 00WN,165,05,10,20,+,3,x1,000; s 00PS,165; M; s 00ES; i ES; B = run:+,10000,20,+0,1,0,0",
    );
}

// 01: CU is first 0, where the manual's drive has its current on at power-on.
#[test]
fn p4_1_17_current_on_and_off() {
    stored("03WN,180,70,1,190", "03QM,180,70,1,190");
    list(
        "F 3; s 03QO,CU = 03QO,CU,0; s 03WN,180,70,1,190; s 03PS,180; W 9 = idle 2; \
         s 03QO,CU = 03QO,CU,1; \
         s 03WN,180,70,0,190; s 03PS,180; W 9 = idle 2; s 03QO,CU = 03QO,CU,0",
    );
}

#[test]
fn p4_1_18_opening_loop() {
    stored("03WN,180,61,12,181", "03QM,180,61,12,181");
    list("F 3; s 03WN,180,61,12,181; s 03PS,180; M; s 03EE; s 03QR = 03QR,181,+0,12");
    list("s 00WN,180,61,65535,181; s 00WN,180,61,65536,181 = 00N; s 00WN,180,61,0,181 = 00N");
}

#[test]
fn p4_1_19_closing_loop() {
    stored("03WN,183,62,181,201", "03QM,183,62,181,201");
    let looped = "F 3; s 03WN,180,61,2,183; s 03WN,183,62,181,201; s 03PS,180; M 2";
    list(&format!("{looped}; s 03EE; s 03QR = 03QR,181,+0,1"));
    let looped = "F 3; s 03WN,180,61,1,183; s 03WN,183,62,181,201; s 03PS,180; M 2";
    list(&format!("{looped}; s 03EE; s 03QR = 03QR,201,+0,0"));
}

// "execute for five times a group of four instructions"
#[test]
fn p4_1_19_example_1_of_loop() {
    let program =
        "F 6; s 06WN,120,61,5,121; s 06WN,121,01,12,30,+12500,x1,122; s 06WN,122,65,400,123; \
                   s 06WN,123,01,12,30,-12500,x1,124; s 06WN,124,65,400,125; s 06WN,125,62,121,000";
    let there = "W 9 = moving 1; B = run:+,12000,30,+12500,1,0,0; A; P 12500";
    let back = "W 500 = moving 402; B = run:-,12000,30,-12500,1,0,0; A; P 12500";
    let five = vec![format!("{there}; {back}; M 402"); 5].join("; ");
    list(&format!("{program}; s 06PS,120; M; {five}; s 06QA = 06QA,+0; s 06QE = 06QE,00,000"));
}

// "enable and disable the output O0 for 10 times running .. At the end of the loop is executed a
// Indexed Run Without Ramp"
#[test]
fn p4_1_19_example_2_of_loop() {
    let program = "F 9; s 09WN,100,61,10,121; s 09WN,121,58,O0,1,122; s 09WN,122,65,500,123; \
    s 09WN,123,58,O0,0,124; \
                   s 09WN,124,65,500,125; s 09WN,125,62,121,130; \
                   s 09WN,130,11,05,+6000,x1,000; s 09PS,100";
    // One millisecond for the 61, ten rounds of 1 + 501 + 1 + 501 + 1, one for the run.
    list(&format!(
        "{program}; W 20000 = moving 10052; B = run:+,500,0,+6000,1,0,0; P 6000; \
         s 09QA = 09QA,+6000"
    ));
    let flashing = list(&format!("{program}; M 2"));
    assert!(flashing.outputs.o[0]);
    assert!(list(&format!("{program}; M 503")).outputs.o[0]);
    assert!(!list(&format!("{program}; M 504")).outputs.o[0]);
}

#[test]
fn p4_1_20_absolute_position_counter_reset() {
    stored("03WN,180,60,190", "03QM,180,60,190");
    list("F 3; s 03SA,-5121; s 03WN,180,60,190; s 03PS,180; W 9 = idle 2; s 03QA = 03QA,+0");
}

// ---- 4.2, commands

#[test]
fn p4_2_2_1_address_preset() {
    list(
        "F 3; s 03WS,AD,38 = 03Y; s 03QA = silent; s 38QA = 38QA,+0; s 38QS,AD = 38QS,AD,38; \
         s 38WS,AD,48 = 38N",
    );
}

#[test]
fn p4_2_2_2_drive_current_preset() {
    list(
        "F 13; s 13QS,IN = 13QS,IN,1; s 13WS,IN,3; s 13QS,IN = 13QS,IN,3; B = stand:3,0,0; \
         s 13WS,IN,4 = 13N",
    );
}

#[test]
fn p4_2_2_3_operation_mode_preset() {
    list("F 13; s 13QS,RS = 13QS,RS,D2; s 13WS,RS,B2; s 13QS,RS = 13QS,RS,B2; s 13WS,RS,B4 = 13N");
}

// "Step × 4 function can be enabled in D2, D3, B2 and B3 operation mode." 01 makes the other four
// error 51.
#[test]
fn p4_2_2_3_note_1_x4_needs_a_fine_resolution() {
    let run = "s 00WN,122,11,02,+1246,x4,000; s 00PS,122; M";
    for (resolution, error) in [
        ("D2", "00,000"),
        ("D3", "00,000"),
        ("B2", "00,000"),
        ("B3", "00,000"),
        ("D0", "51,122"),
        ("D1", "51,122"),
        ("B0", "51,122"),
        ("B1", "51,122"),
    ] {
        list(&format!("s 00WS,RS,{resolution}; {run}; s 00EE; s 00QE = 00QE,{error}"));
    }
}

// 01 leaves EQ and RD out: N.
#[test]
fn p4_2_2_4_and_p4_2_2_5_equalization_and_answer_delay_are_left_out() {
    list(
        "F 23; s 23WS,EQ,0 = 23N; s 23QS,EQ = 23N; F 3; s 03WS,RD,98 = 03N; \
         s 03WS,RD,98, = 03N; s 03QS,RD = 03N",
    );
}

// Printed with a comma at the end, which 01's form hasn't. Mode 2 is left out.
#[test]
fn p4_2_2_6_coordinates_operation_mode_preset() {
    list(
        "F 3; s 03WS,CM,0, = 03N; s 03WS,CM,0; s 03QS,CM = 03QS,CM,0; s 03WS,CM,1; \
         s 03QS,CM = 03QS,CM,1",
    );
    list("F 3; s 03WS,CM,2,1000 = 03N; s 03WS,CM,2 = 03N");
}

// Printed with a comma at the end. 01 turns the sense round: preset 1 makes a start need ES off,
// and the first value is 0; so a fresh drive behaves as the manual's.
#[test]
fn p4_2_2_7_es_priority_preset() {
    list("F 23; s 23QS,ES = 23QS,ES,0; s 23WS,ES,1, = 23N; s 23WS,ES,1; s 23QS,ES = 23QS,ES,1");
    list("i ES ST; s 00QA = silent");
    list("s 00WS,ES,1; i ES ST; s 00QA = 00QA,+0");
}

// 01 leaves CY, CN and RA out: N.
#[test]
fn p4_2_3_p4_2_4_and_p4_2_8_are_left_out() {
    list(
        "F 12; s 12CY = 12N; s 12QO,CU = 12QO,CU,0; F 8; s 08CN = 08N; s 08SA,5; s 08RA = 08N; \
         s 08QA = 08QA,+5",
    );
}

// The manual allows PS by broadcast, 01 doesn't: silent without effect.
#[test]
fn p4_2_5_stored_instruction_execution() {
    list("F 5; s 05WN,147,58,O0,1,000; s 05PS,147 = 05Y; M; s 05QO,O0 = 05QO,O0,1");
    list("F 5; s 99PS,147 = silent; s 05QA = 05QA,+0");
}

#[test]
fn p4_2_6_emergency_stop() {
    list("F 5; s 05WN,147,65,100,000; s 05PS,147; M; s 05EE = 05Y; s 05QR = 05QR,147,+100,0");
    list("F 5; s 05PS,147; s 99EE = silent; s 05QR = 05QR,147,+0,0");
}

#[test]
fn p4_2_7_free_run_stop() {
    list("F 2; s 02WN,100,12,05,-,x1,000; s 02PS,100; M; P 3; s 02ES = 02Y; s 02QA = 02QA,-3");
    list("F 2; s 02WN,100,12,05,-,x1,000; s 02PS,100; M; P 3; s 99ES = silent; s 02QA = 02QA,-3");
}

#[test]
fn p4_2_9_absolute_position_counter_setting() {
    list(
        "F 3; s 03SA,3200; s 03QA = 03QA,+3200; s 03SA,-2147483648; s 03QA = 03QA,-2147483648; \
         s 03SA,+2147483648 = 03N",
    );
    list("F 3; s 99SA,3200 = silent; s 03QA = 03QA,+0");
}

// Printed with a comma at the end, which 01's form hasn't.
#[test]
fn p4_2_10_hardware_output_setting() {
    list(
        "F 14; s 14SO,O1,1, = 14N; s 14SO,O1,1; s 14QO,O1 = 14QO,O1,1; s 14SO,O1,0; \
         s 14QO,O1 = 14QO,O1,0",
    );
}

// Printed with a comma at the end, which 01's form hasn't.
#[test]
fn p4_2_11_electronic_cam_setting() {
    list(
        "F 6; s 06SC,1,+117500, = 06N; s 06SC,1,+117500; s 06QC = 06QC,1,+117500; s 06SC,0; \
         s 06QC = 06QC,0",
    );
    list(
        "F 6; s 06SA,117499; s 06SC,1,+117500; s 06WN,100,11,05,+1,x1,000; s 06PS,100; M; P; \
         s 06QO,O3 = 06QO,O3,1; \
         s 06QC = 06QC,0",
    );
}

// ---- 4.3, data requests and answers

#[test]
fn p4_3_1_absolute_position_request() {
    list("F 14; s 14SA,5121; s 14QA = 14QA,+5121; s 99QA = silent");
}

#[test]
fn p4_3_1_note_counting_limits() {
    list(
        "s 00SA,2147483647; s 00QA = 00QA,+2147483647; s 00SA,-2147483648; \
         s 00QA = 00QA,-2147483648",
    );
}

#[test]
fn p4_3_2_preset_value_request() {
    list("F 14; s 14WS,IN,0; s 14QS,IN = 14QS,IN,0; s 14WS,RS,B1; s 14QS,RS = 14QS,RS,B1");
    list("F 14; s 14WS,ES,1; s 14QS,ES = 14QS,ES,1; s 14QS,CM = 14QS,CM,0; s 14QS,AD = 14QS,AD,14");
}

#[test]
fn p4_3_3_hardware_input_status_request() {
    list("F 14; i I0; s 14QI,I0 = 14QI,I0,1; s 14QI,I1 = 14QI,I1,0; i 0; s 14QI,I0 = 14QI,I0,0");
}

// "Supposing BS=1, at the output BS status request, the drive doesn't transmit any answer"
#[test]
fn p4_3_4_hardware_output_status_request() {
    list(
        "F 14; s 14QO,O1 = 14QO,O1,0; s 14QO,BS = 14QO,BS,0; s 14QO,FA = 14QO,FA,1; s 14PS,100; \
         s 14QO,BS = silent",
    );
}

// The first answer is printed with X1; 01 prints x.
#[test]
fn p4_3_5_content_of_a_memory_cell_request() {
    stored("11WN,172,01,09,15,+31754,X1,121", "11QM,172,01,09,15,+31754,x1,121");
    stored("11WN,172,65,3400,159", "11QM,172,65,3400,159");
}

#[test]
fn p4_3_6_electronic_cam_setting_request() {
    list("F 14; s 14SC,1,+56564; s 14QC = 14QC,1,+56564; s 14SC,0; s 14QC = 14QC,0");
}

#[test]
fn p4_3_7_kind_of_error_request() {
    list(
        "F 11; s 11QE = 11QE,00,000; s 11WS,CM,1; s 11SA,9000000; s 11WN,212,11,05,+0,x1,000; \
         s 11PS,212; M; s 11QE = 11QE,50,212",
    );
}

// ---- 4.4, confirmation messages

// "Obviously a transmitted command can have no effect, for instance a STOP command with motor
// already stopped"
#[test]
fn p4_4_1_y_also_without_effect() {
    list("s 00EE = 00Y; s 00ES = 00Y; s 00SA,0 = 00Y; s 00WN,100,00,000 = 00Y");
}

// "There was a syntax error or some parameter was out of range."
#[test]
fn p4_4_2_n_for_syntax_and_range() {
    list(
        "s 00WN,100,01,25,18,+10000,x1,000 = 00N; s 00WN,100,01,10,18,+10000,000 = 00N; \
         s 00QM,100 = 00QM,100,00,000",
    );
}

#[test]
fn p4_4_3_no_answer() {
    list(
        "s 07QA = silent; s 99WS,IN,2 = silent; s 00PS,100; s 00QA = silent; s 00WS,IN,2 = silent",
    );
}

// ---- 5, operation mode

// "motor covers 2400 steps in the positive direction, independently on the starting position"
#[test]
fn p5_1_relative_coordinates_mode() {
    let run =
        "s 00WN,100,01,20,30,+2400,X1,000; s 00PS,100; M; B = run:+,20000,30,+2400,1,0,0; P 2400";
    list(&format!("s 00WS,CM,0; {run}; s 00QA = 00QA,+2400"));
    list(&format!("s 00SA,-8388607; {run}; s 00QA = 00QA,-8386207"));
    list(&format!("s 00SA,2147483000; {run}; s 00QA = 00QA,-2147481896"));
}

// "If the multiplier X4 is enabled, the maximum frequency, acceleration and number of the steps are
// multiplied by 4"
#[test]
fn p5_1_relative_coordinates_mode_with_x4() {
    list(
        "s 00WN,100,01,20,30,+2400,X4,000; s 00PS,100; M; B = run:+,80000,30,+9600,1,0,0; \
         P 9600; s 00QA = 00QA,+9600",
    );
}

#[test]
fn p5_2_absolute_coordinates_mode() {
    let run = "s 00WN,100,01,20,30,+2400,X1,000; s 00PS,100";
    list(&format!(
        "s 00WS,CM,1; {run}; M; B = run:+,20000,30,+2400,1,0,0; P 2400; s 00QA = 00QA,+2400"
    ));
    list(&format!(
        "s 00WS,CM,1; s 00SA,2500; {run}; M; B = run:-,20000,30,-100,1,0,0; P 100; \
         s 00QA = 00QA,+2400"
    ));
    list(&format!(
        "s 00WS,CM,1; s 00SA,2400; {run}; W 9 = idle 1; s 00QA = 00QA,+2400; s 00QE = 00QE,00,000"
    ));
}

// "If the absolute starting position is -8.388.607, the motor shift is not allowed .. (error code
// 50)"
#[test]
fn p5_2_absolute_coordinates_mode_field_overflow() {
    let run = "s 00WN,100,01,20,30,+2400,X1,000; s 00PS,100; M";
    list(&format!(
        "s 00WS,CM,1; s 00SA,-8388607; {run}; B = stand:1,0,0; s 00QE = 00QE,50,100; \
         s 00QA = 00QA,-8388607"
    ));
    list(&format!("s 00WS,CM,1; s 00SA,-8386207; {run}; B = run:+,20000,30,+8388607,1,0,0"));
}

// "only maximum frequency and acceleration are multiplied by four. In this case the position reached
// is the one set as instruction parameter". Since 02, Slip 4, this agrees: target, limit, frequency.
// Not taken are the manual's error of 3 steps and its acceleration: each step counts one here, and
// the order names the code of the ramp.
#[test]
fn p5_2_absolute_coordinates_mode_with_x4() {
    let run = "s 00WN,100,01,20,30,+2400,X4,000; s 00PS,100";
    list(&format!(
        "s 00WS,CM,1; {run}; M; B = run:+,80000,30,+2400,1,0,0; P 2400; s 00QA = 00QA,+2400"
    ));
    list(&format!("s 00WS,CM,1; s 00SA,2400; {run}; W 9 = idle 1; s 00QA = 00QA,+2400"));
    list(&format!("s 00WS,CM,1; s 00SA,-8386207; {run}; M; B = run:+,80000,30,+8388607,1,0,0"));
    list(&format!("s 00WS,CM,1; s 00SA,-8388607; {run}; M; s 00QE = 00QE,50,100"));
}

// "coordinate 0 can be defined through the execution of a zero search procedure followed by the
// internal steps counter reset"
#[test]
fn p5_2_the_origin_is_found_and_reset() {
    list(
        "s 00WS,CM,1; s 00SA,77; s 00WN,100,03,20,10,+,05,101; s 00WN,101,60,102; \
         s 00WN,102,11,05,+3,x1,000; s 00PS,100; \
         M; P; i PX; H; P 4; i 0; M 2; B = run:+,500,0,+3,1,0,0; P 3; s 00QA = 00QA,+3",
    );
}

// The cyclic mode is left out. The cells of its example are stored, and reach their places in
// absolute mode.
#[test]
fn p5_3_repetitive_cyclic_operation_mode_is_left_out() {
    list("s 00WS,CM,2,1000 = 00N; s 00QS,CM = 00QS,CM,0");
    for (cell, place) in [(100, 0), (101, 200), (102, 400), (103, 500), (104, 700), (105, 900)] {
        let string = format!("s 00WN,{cell},11,05,+{place},x1,000");
        list(&format!(
            "s 00WS,CM,1; s 00SA,450; {string}; s 00PS,{cell}; M; P {}; s 00QA = 00QA,+{place}",
            (place - 450_i32).abs()
        ));
    }
}
