//! Strings that write no cell, or nothing new, leave the map as it is; and a loaded drive's map is
//! counted as a fresh one's.

use crate::kept::{written, Kept};
use reference::memory::Drive;

/// 100 leads to a circle of three cells. 130 is not used and leads to 131.
const CELLS: &str = "100,00,120 120,00,121 121,62,122,000 122,00,120 130,00,131 131,65,3,000";
const SHOWN: &str = "120-122";

/// A string that leaves drive and map, and its answer or `silent`.
fn leaves(kept: &mut Kept, text: &str, answer: &str) {
    let before = *kept;
    assert_eq!(kept.tell(text), answer, "{text}");
    assert_eq!((kept.drive, kept.used), (before.drive, before.used), "{text}");
}

// 01: "(5) over 64 bytes with the 13, unknown code, wrong fields or range: `AAN`"
#[test]
fn a_wn_answered_n_leaves_the_map() {
    let mut kept = written(CELLS);
    for text in [
        "WN,100,00,231",
        "WN,100,00,099",
        "WN,100,00,130,",
        "WN,100,00",
        "WN,100,00,0130",
        "WN,100,00,13",
        "WN,100,04,130",
        "WN,100,69,000",
        "WN,100,69,130",
        "WN,100,62,000,130",
        "WN,100,62,130",
        "WN,100,63,I3,0,130,131",
        "WN,100,63,I0,2,130,131",
        "WN,100,65,8388608,130",
        "WN,1000,00,130",
        "WN,10,00,130",
        "WN,099,00,130",
        "WN,231,00,130",
        "WN,000,00,130",
        "WN,100",
        "WN,100,",
        "WN,",
        "WN",
        "WN100,00,130",
        "wn,100,00,130",
        "WN,100,00, 130",
        "WN 100,00,130",
    ] {
        leaves(&mut kept, &format!("00{text}"), "00N");
    }
    leaves(&mut kept, &format!("00WN,100,65,{},130", "0".repeat(60)), "00N");
    assert_eq!(kept.shown(), SHOWN);
}

// 01: "(2) first two bytes not digits, or neither own address nor 99: silent"
#[test]
fn a_wn_to_another_address_leaves_the_map() {
    let mut kept = written(CELLS);
    for address in ["01", "47", "98", "0A", " 0", "+0"] {
        leaves(&mut kept, &format!("{address}WN,100,00,130"), "silent");
    }
    leaves(&mut kept, "0WN,100,00,130", "silent");
    leaves(&mut kept, "WN,100,00,130", "silent");
    leaves(&mut kept, "000WN,100,00,130", "00N");
}

// 01: "AA is the address in the string, also after WS,AD."
#[test]
fn a_wn_to_the_new_address_is_followed() {
    let mut kept = written(CELLS);
    assert_eq!(kept.tell("00WS,AD,31"), "00Y");
    leaves(&mut kept, "00WN,100,00,130", "silent");
    assert_eq!(kept.tell("31WN,100,00,130"), "31Y");
    assert_eq!(kept.shown(), "130-131");
}

// 01: "(4) for 99, code not WS, EE, ES: silent"
#[test]
fn a_wn_to_all_drives_leaves_the_map() {
    let mut kept = written(CELLS);
    leaves(&mut kept, "99WN,100,00,130", "silent");
    leaves(&mut kept, "99WN,100,00,000", "silent");
    assert_eq!(kept.tell("99WS,CM,1"), "silent");
    assert_eq!(kept.shown(), SHOWN);
}

// 01: "(3) busy, and bytes 3 and 4 not EE or ES: silent"
#[test]
fn a_wn_to_a_busy_drive_leaves_the_map() {
    for cell in ["131", "130", "120"] {
        let mut kept = written(CELLS);
        assert_eq!(kept.tell(&format!("00PS,{cell}")), "00Y");
        leaves(&mut kept, "00WN,100,00,130", "silent");
        kept.drive.millisecond().unwrap();
        leaves(&mut kept, "00WN,100,00,130", "silent");
        leaves(&mut kept, "00WN,120,69", "silent");
        assert_eq!(kept.tell("00EE"), "00Y");
        assert_eq!(kept.shown(), SHOWN);
        assert_eq!(kept.tell("00WN,100,00,130"), "00Y");
        assert_eq!(kept.shown(), "130-131");
    }
}

// 01: "(1) empty, or last byte not 13: silent"
#[test]
fn a_wn_without_its_end_leaves_the_map() {
    let mut kept = written(CELLS);
    let before = kept;
    for text in ["", "0", "00WN,100", "00WN,100,00,130", "00WN,100,00,000\n", "00WN,100,00,130\r "]
    {
        assert_eq!(kept.string(text.as_bytes(), &mut [7; 64]), Ok(None), "{text:?}");
        assert_eq!((kept.drive, kept.used), (before.drive, before.used), "{text:?}");
    }
}

// 01: "3, answer buffer under 64 bytes"
#[test]
fn a_wn_with_a_short_buffer_leaves_the_map() {
    let mut kept = written(CELLS);
    let before = kept;
    for length in [0, 4, 63] {
        for text in ["00WN,100,00,130\r", "00WN,100,00,000\r", "00WN,120,69\r", "00WN,100,00,120\r"]
        {
            assert_eq!(kept.string(text.as_bytes(), &mut vec![7; length]), Err(3));
            assert_eq!((kept.drive, kept.used), (before.drive, before.used));
        }
    }
}

// 01: "String: 2, drive unsound"
#[test]
fn a_wn_to_an_unsound_drive_leaves_the_map() {
    let mut kept = written(CELLS);
    kept.drive.cam.position = 1;
    let before = kept;
    for length in [0, 64] {
        for text in ["00WN,100,00,130\r", "00WN,100,00,000\r", "00QA\r", ""] {
            assert_eq!(kept.string(text.as_bytes(), &mut vec![7; length]), Err(2));
            assert_eq!((kept.drive, kept.used), (before.drive, before.used));
        }
    }
}

// A drive whose cells lead to no cell is unsound. It can be counted, and nothing is reached there.
#[test]
fn an_unsound_cell_can_be_counted() {
    for outside in [1, 99, 231, 255] {
        let mut kept = written(CELLS);
        kept.drive.cells[22].next = outside;
        let counted = reference::usage::UsedCells::count(&kept.drive);
        assert_eq!(counted, kept.used, "{outside}");
        let before = kept;
        assert_eq!(kept.string(b"00WN,122,00,000\r", &mut [0; 64]), Err(2));
        assert_eq!((kept.drive, kept.used), (before.drive, before.used));
    }
}

#[test]
fn a_wn_of_equal_content_leaves_the_map() {
    let mut kept = written(CELLS);
    for cell in CELLS.split(' ') {
        leaves(&mut kept, &format!("00WN,{cell}"), "00Y");
    }
    // Another text of the same content.
    leaves(&mut kept, "00WN,131,65,003,000", "00Y");
    leaves(&mut kept, "00WN,200,00,000", "00Y");
}

#[test]
fn a_wn_of_other_content_with_equal_ways_leaves_the_map() {
    for (cell, contents) in [
        ("100", ["65,5,120", "11,05,+3,x1,120", "62,120,120", "62,120,000", "63,I0,1,120,120"]),
        ("121", ["63,F3,0,122,000", "63,PX,1,122,122", "00,122", "62,122,122", "70,1,122"]),
        ("101", ["69", "60,000", "65,1,000", "58,O0,1,000", "57,1,-100,000"]),
    ] {
        let mut kept = written(CELLS);
        for content in contents {
            let before = kept;
            kept.write(&format!("{cell},{content}"));
            assert_ne!(kept.drive, before.drive);
            assert_eq!(kept.used, before.used, "{cell},{content}");
        }
    }
}

#[test]
fn a_wn_to_a_cell_that_is_not_used_leaves_the_map() {
    let mut kept = written(CELLS);
    for text in ["130,69", "130,62,200,201", "131,00,130", "230,00,120", "116,00,117", "130,00,100"]
    {
        kept.write(text);
        assert_eq!(kept.shown(), SHOWN, "{text}");
    }
}

#[test]
fn other_strings_leave_the_map() {
    let mut kept = written(CELLS);
    let texts = ["WS,IN,3", "WS,RS,B0", "SA,-100", "SO,F0,1", "SC,1,+120", "ES", "EE"];
    for text in texts {
        assert_eq!(kept.tell(&format!("00{text}")), "00Y");
    }
    assert_eq!(kept.tell("00QM,100"), "00QM,100,00,120");
    assert_eq!(kept.tell("00QM,121"), "00QM,121,62,122,000");
    assert_eq!(kept.tell("00QX,100,00,130"), "00N");
    assert_eq!(kept.shown(), SHOWN);
}

// 01: "WN of changed content into the interrupted record's cell empties the record"
#[test]
fn a_wn_into_the_records_cell_is_followed() {
    let mut kept = written("100,65,9,120 120,00,121");
    assert_eq!(kept.tell("00PS,100"), "00Y");
    kept.drive.millisecond().unwrap();
    assert_eq!(kept.tell("00EE"), "00Y");
    assert_eq!(kept.tell("00QR"), "00QR,100,+9,0");
    leaves(&mut kept, "00WN,100,65,9,120", "00Y");
    kept.write("100,65,9,121");
    assert_eq!(kept.tell("00QR"), "00QR,000");
    assert_eq!(kept.shown(), "121");
}

// 02: "from a fresh or loaded drive with its map so counted"
#[test]
fn a_loaded_drive_has_its_map_counted() {
    let made = written(&format!("{CELLS} 122,62,229,120 229,00,230"));
    assert_eq!(made.shown(), "120-122 229-230");
    let mut buffer = [0; 2048];
    let length = made.drive.image(&mut buffer).unwrap();
    // Cells 228 to 230 aren't kept and are Null after reading; 122 still leads to 229.
    let mut kept = Kept::of(Drive::load(&buffer[..length]).unwrap());
    assert_eq!(kept.shown(), "120-122 229");
    kept.write("229,00,230");
    assert_eq!(kept.shown(), "120-122 229-230");
    kept.write("101,00,130");
    assert_eq!(kept.shown(), "120-122 130-131 229-230");
    kept.write("100,00,000");
    assert_eq!(kept.shown(), "130-131");
}

// The map stands beside the drive: what runs changes no cell.
#[test]
fn a_program_that_runs_leaves_the_map() {
    let mut kept = written("100,61,2,120 120,58,F0,1,121 121,62,120,122 122,65,2,123 123,69");
    assert_eq!(kept.tell("00PS,100"), "00Y");
    while !kept.drive.idle() {
        leaves(&mut kept, "00WN,100,00,000", "silent");
        kept.drive.millisecond().unwrap();
    }
    assert_eq!(kept.tell("00QO,F0"), "00QO,F0,1");
    assert_eq!(kept.shown(), "120-123");
}
