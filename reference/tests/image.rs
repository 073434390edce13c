//! 02, Slip 1: images byte by byte. Worked ones, every field at both ends and beyond them, every
//! refusal and what it leaves. Random drives are looked at in `generated/kept.rs`, and files that
//! are kept in `image_files.rs`.

#[path = "image/cells.rs"]
mod cells;
#[path = "common/images.rs"]
mod images;
#[path = "common/lists.rs"]
mod lists;

use cells::{WORKED, WRONG};
use images::{fault_before, judged};
use lists::{go_on, list};
use reference::image::LONGEST;
use reference::memory::Drive;

const FRESH: [u8; 5] = [0, 1, 2, 0, 0];

fn hex(text: &str) -> Vec<u8> {
    text.split(' ').map(|byte| u8::from_str_radix(byte, 16).expect("two hex digits")).collect()
}

fn image(drive: &Drive) -> Vec<u8> {
    let mut buffer = [0; LONGEST];
    let length = drive.image(&mut buffer).expect("a sound drive");
    buffer[..length].to_vec()
}

/// The presets, one cell again and again, and at one place another.
fn memory(presets: &[u8], often: &[u8], place: usize, cell: &[u8]) -> Vec<u8> {
    let cells = (0..128).flat_map(|at| if at == place { cell } else { often });
    presets.iter().chain(cells).copied().collect()
}

/// A fresh drive with some bytes in place of those of a cell, given by its address.
fn fresh_with(cell: &[u8], address: usize) -> Vec<u8> {
    memory(&FRESH, &[0, 0], address - 100, cell)
}

/// The bytes of the worked cells.
fn worked() -> Vec<Vec<u8>> {
    WORKED.lines().map(|row| hex(row.split_once(" => ").unwrap().1)).collect()
}

/// The worked cells one after another, and 69s behind them.
fn every_code() -> Vec<u8> {
    let others = vec![vec![69]; 128 - worked().len()];
    [vec![FRESH.to_vec()], worked(), others].concat().concat()
}

fn taken(image: &[u8]) -> bool {
    match Drive::load(image) {
        Ok(_) => true,
        Err(refusal) => {
            assert_eq!(refusal, 10);
            false
        }
    }
}

/// A fault is one wherever the cell stands, and whatever the others hold.
fn refused_anywhere(cell: &[u8], name: &str) {
    for address in [100, 101, 163, 227] {
        assert!(!taken(&fresh_with(cell, address)), "{name} at {address}");
        assert!(!taken(&memory(&FRESH, &[69], address - 100, cell)), "{name} at {address}");
    }
}

// 02: "each number in groups of seven bits, lowest first, bit 7 set on all groups but the last"
#[test]
fn a_fresh_drive_has_261_bytes() {
    let expected = fresh_with(&[0, 0], 100);
    assert_eq!(expected.len(), 261);
    assert_eq!(image(&Drive::fresh(0).unwrap()), expected);
    assert_eq!(Drive::load(&expected), Drive::fresh(0));
    let mut other = expected.clone();
    other[0] = 47;
    assert_eq!(image(&Drive::fresh(47).unwrap()), other);
    assert_eq!(Drive::load(&other), Drive::fresh(47));
}

// 02: "First come the presets in 01's order"; "names, letters and s stand as their place in the list
// that 01 gives with their field or preset, counted from 0"
#[test]
fn presets_stand_in_order() {
    let drive = list("s 00WS,IN,3; s 00WS,RS,B1; s 00WS,ES,1; s 00WS,CM,1; s 00WS,AD,12");
    assert_eq!(image(&drive)[..5], [12, 3, 5, 1, 1]);
    for (place, name) in ["D0", "D1", "D2", "D3", "B0", "B1", "B2", "B3"].iter().enumerate() {
        let drive = list(&format!("s 00WS,RS,{name}"));
        assert_eq!(image(&drive)[..5], [0, 1, place as u8, 0, 0]);
        assert_eq!(Drive::load(&image(&drive)), Ok(drive));
    }
}

// 02: "then of each cell code, parameters and DDD in the order of its QM answer, without the cell
// address"; "signed n as 2n or −2n−1"
#[test]
fn every_field_is_kept_at_both_ends() {
    for row in WORKED.lines() {
        let (text, bytes) = row.split_once(" => ").unwrap();
        for address in [100, 163, 227] {
            let drive = list(&format!("s 00WN,{address},{text}"));
            let expected = fresh_with(&hex(bytes), address);
            assert_eq!(image(&drive), expected, "{text}");
            assert_eq!(Drive::load(&expected), Ok(drive), "{text}");
        }
    }
}

// 02, Slip 6: "Older images are read as before, byte for byte, since small numbers keep their groups.
// An older gateway refuses an image with a longer wait by 10, and never shows a shorter one."
#[test]
fn an_older_gateway_reads_small_delays_and_refuses_longer_ones() {
    for address in [100, 163, 227] {
        let made = |delay: u32| image(&list(&format!("s 00WN,{address},65,{delay},000")));
        for delay in [0, 127, 128, 16_383, 16_384, 65_535] {
            assert_eq!(fault_before(&made(delay)), None, "{delay}");
            assert!(taken(&made(delay)), "{delay}");
        }
        for delay in [65_536, 65_537, 131_071, 2_097_152, 8_388_607] {
            assert_eq!(fault_before(&made(delay)).as_deref(), Some("65.1 above"), "{delay}");
            assert!(taken(&made(delay)), "{delay}");
        }
    }
}

// 02: "10, the only refusal of reading, bytes that the writer makes for no drive"
#[test]
fn every_field_is_refused_out_of_its_range() {
    for row in WRONG.lines() {
        let (name, bytes) = row.split_once(" => ").unwrap();
        refused_anywhere(&hex(bytes), name);
    }
}

#[test]
fn presets_are_refused_above_their_range() {
    for (place, most) in [47, 3, 7, 1, 1].into_iter().enumerate() {
        let mut presets = FRESH;
        presets[place] = most;
        assert!(taken(&memory(&presets, &[69], 0, &[69])), "place {place}");
        for above in [most + 1, 127] {
            presets[place] = above;
            assert!(!taken(&memory(&presets, &[69], 0, &[69])), "{above} at place {place}");
        }
    }
}

#[test]
fn an_unset_cam_has_no_number() {
    for number in ["01", "02", "7f", "80 01", "ff ff ff ff 0f"] {
        refused_anywhere(&hex(&format!("39 00 {number} 00")), number);
    }
}

#[test]
fn codes_that_there_are_not_are_refused() {
    let known = WORKED.lines().map(|row| row[..2].parse().unwrap()).collect::<Vec<u8>>();
    for code in (0..128).filter(|code| !known.contains(code)) {
        refused_anywhere(&[code], "a code alone");
        refused_anywhere(&[code, 0], "a code and a next");
    }
    refused_anywhere(&[0x80, 0x02, 0], "code 256");
}

// 01: "Code 69 has no DDD"
#[test]
fn a_69_is_its_code_alone() {
    refused_anywhere(&[69, 100], "69 with a next");
    let image = memory(&FRESH, &[69], 0, &[69, 0, 0]);
    assert!(!taken(&image));
    // The 0 after the 69 is the code of the next cell, and its next is the one that is left.
    assert!(taken(&image[..image.len() - 1]));
}

// 02: "shortest form only"
#[test]
fn a_longer_form_of_any_number_is_refused() {
    let cells = worked();
    for cell in [&FRESH[..]].into_iter().chain(cells.iter().map(Vec::as_slice)) {
        for last in (0..cell.len()).filter(|place| cell[*place] < 128) {
            for more in [&[0][..], &[128, 0], &[128, 128, 128, 128, 128, 0]] {
                let mut longer = cell.to_vec();
                longer[last] |= 128;
                longer.splice(last + 1..last + 1, more.iter().copied());
                if cell == FRESH {
                    assert!(!taken(&memory(&longer, &[69], 0, &[69])), "{longer:02x?}");
                } else {
                    refused_anywhere(&longer, "longer form");
                }
            }
        }
    }
}

#[test]
fn numbers_beyond_32_bits_are_refused() {
    // 2^32 - 1 is the cam's lowest position; 2^32 has five groups too, 2^35 six, and both are 0 in 32
    // bits.
    assert!(taken(&fresh_with(&hex("39 01 ff ff ff ff 0f 00"), 100)));
    for cell in [
        "39 01 80 80 80 80 10 00",
        "39 01 81 80 80 80 10 00",
        "39 01 ff ff ff ff 1f 00",
        "39 01 80 80 80 80 80 01 00",
        "39 01 80 80 80 80 80 80 80 80 80 01 00",
        "80 80 80 80 10 00",
        "00 80 80 80 80 10",
        "00 80 80 80 80 80 01",
        "41 80 80 80 80 10 00",
        "0b 82 80 80 80 10 00 00 00",
        "0b 02 80 80 80 80 10 00 00",
    ] {
        refused_anywhere(&hex(cell), cell);
    }
    let presets = hex("80 80 80 80 10 01 02 00 00");
    assert!(!taken(&memory(&presets, &[0, 0], 0, &[0, 0])));
}

#[test]
fn the_whole_slice_is_one_image() {
    let image = every_code();
    assert!(taken(&image));
    for length in 0..image.len() {
        assert!(!taken(&image[..length]), "cut to {length}");
    }
    for byte in 0..=255 {
        assert!(!taken(&[&image[..], &[byte]].concat()), "{byte} after the end");
    }
    assert!(!taken(&[&image[..], &image[..]].concat()));
    assert!(!taken(&[&image[..], &[0; 635]].concat()));
    assert!(!taken(&[0; 5]));
}

#[test]
fn the_shortest_has_133_bytes_and_the_longest_1413() {
    let shortest = memory(&FRESH, &[69], 0, &[69]);
    let drive = Drive::load(&shortest).unwrap();
    assert_eq!((shortest.len(), image(&drive)), (133, shortest));
    for cell in ["05 18 2a 01 ff ff ff 03 01 e6 01", "1f f0 01 2a fd ff ff 07 01 e6 01"] {
        let longest = memory(&[47, 3, 7, 1, 1], &hex(cell), 0, &hex(cell));
        let drive = Drive::load(&longest).unwrap();
        assert_eq!((longest.len(), image(&drive)), (LONGEST, longest));
    }
    assert_eq!(LONGEST, 1413);
}

// 02: "Cells 228 to 230 aren't kept and are Null after reading."
#[test]
fn cells_228_to_230_are_null_after_reading() {
    let mut drive =
        list("s 00WN,227,62,228,230; s 00WN,228,65,9,229; s 00WN,229,69; s 00WN,230,60,000");
    let image = image(&drive);
    let mut loaded = Drive::load(&image).unwrap();
    let cells = "s 00QM,227 = 00QM,227,62,228,230; s 00QM,228 = 00QM,228,00,000; \
                 s 00QM,229 = 00QM,229,00,000; s 00QM,230 = 00QM,230,00,000";
    go_on(&mut loaded, cells);
    go_on(&mut drive, "s 00WN,228,00,000; s 00WN,229,00,000; s 00WN,230,00,000");
    assert_eq!(loaded, drive);
}

// 02: "Reading gives a fresh drive so filled."
#[test]
fn nothing_else_is_kept() {
    let program = "s 00WN,100,65,9,101; s 00WN,101,11,05,+3,x4,000; s 00WS,RS,B3";
    let drive = list(&format!(
        "{program}; s 00SA,-5; s 00SC,1,+7; s 00SO,O1,1; s 00PS,100; M; s 00EE; s 00QR = 00QR,100,+9,0; i I1"
    ));
    assert_eq!(Drive::load(&image(&drive)), Ok(list(program)));
}

#[test]
fn a_busy_drive_is_served() {
    let program = "s 00WN,100,65,9,101; s 00WN,101,01,10,20,+3,x1,000";
    let expected = image(&list(program));
    let busy = ["s 00PS,100", "s 00PS,100; M", "s 00PS,101; M", "s 00PS,101; M; P; s 00EE"];
    for started in busy {
        let drive = list(&format!("{program}; {started}"));
        assert!(!drive.idle());
        assert_eq!(image(&drive), expected, "{started}");
    }
}

#[test]
fn a_loaded_drive_runs() {
    let written = list("s 00WN,100,61,2,101; s 00WN,101,11,05,+1,x4,102; s 00WN,102,62,101,000");
    let mut drive = Drive::load(&image(&written)).unwrap();
    go_on(
        &mut drive,
        "s 00PS,100; W 9 = moving 2; P 4; W 9 = moving 2; P 4; W 9 = idle 1; s 00QA = 00QA,+8",
    );
}

// 02: "leaves later bytes as they are"; "9, image buffer too short for the image"; 01: "Every refusal
// hands back its number, the drive as it came, and untouched buffers."
#[test]
fn a_buffer_is_filled_from_the_front_or_left_alone() {
    let drive = list("s 00WN,100,65,400,000; s 00WN,227,57,1,-2147483648,230");
    let expected = image(&drive);
    let length = expected.len();
    for longer in [0, 1, 5, 700] {
        let mut buffer = vec![0xa5; length + longer];
        assert_eq!(drive.image(&mut buffer), Ok(length));
        assert_eq!(buffer, [&expected[..], &vec![0xa5; longer]].concat());
    }
    for short in 0..length {
        let mut buffer = vec![0xa5; short];
        assert_eq!(drive.image(&mut buffer), Err(9));
        assert_eq!(buffer, vec![0xa5; short]);
    }
}

// 02: "9, .. after 2"
#[test]
fn an_unsound_drive_has_no_image() {
    let mut drive = Drive::fresh(0).unwrap();
    drive.cam.position = 1;
    for length in [0, 260, 261, 2048] {
        let mut buffer = vec![7; length];
        assert_eq!(drive.image(&mut buffer), Err(2));
        assert_eq!(buffer, vec![7; length]);
    }
}

// 02: "bytes that the writer makes for no drive". The table of fields says which these are.
#[test]
fn one_byte_changed_is_another_image_or_none() {
    let mut changed = every_code();
    for place in 0..changed.len() {
        let kept = changed[place];
        for byte in 0..=255 {
            changed[place] = byte;
            let loaded = Drive::load(&changed);
            assert_eq!(loaded.is_ok(), judged(&changed).is_ok(), "{byte} at {place}");
            if let Ok(drive) = loaded {
                assert_eq!(image(&drive), changed);
            }
        }
        changed[place] = kept;
    }
}

#[test]
fn cells_and_bytes_at_random_are_judged_as_the_table_judges_them() {
    let mut state: u64 = 2;
    let mut random = move || {
        state =
            state.wrapping_mul(6_364_136_223_846_793_005).wrapping_add(1_442_695_040_888_963_407);
        (state >> 33) as usize
    };
    let cells = worked();
    let mut read = 0;
    for _ in 0..4_000 {
        let presets = [random() % 49, random() % 5, random() % 9, random() % 2, random() % 2];
        let mut bytes: Vec<u8> = presets.map(|preset| preset as u8).to_vec();
        for _ in 0..128 + random() % 20 / 19 {
            bytes.extend(&cells[random() % cells.len()]);
        }
        for _ in 0..random() % 4 {
            let place = random() % bytes.len();
            bytes[place] = (random() % 256) as u8;
        }
        let loaded = Drive::load(&bytes);
        assert_eq!(loaded.is_ok(), judged(&bytes).is_ok(), "{bytes:02x?}");
        if let Ok(drive) = loaded {
            assert_eq!(image(&drive), bytes);
            read += 1;
        }
    }
    assert!(read > 500, "{read} read");
}
