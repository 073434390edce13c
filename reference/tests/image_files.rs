//! The files of `tests/images`: whole ones are read and written again byte for byte, damaged ones
//! are refused. The lists below say how each file was made.

use reference::frequency::TABLE;
use reference::image::LONGEST;
use reference::memory::Drive;
use std::fs;
use std::path::{Path, PathBuf};

fn folder() -> PathBuf {
    Path::new(env!("CARGO_MANIFEST_DIR")).join("../tests/images")
}

/// The files of a folder that hold an image, with their bytes.
fn files(folder: &Path) -> Vec<(String, Vec<u8>)> {
    let paths = fs::read_dir(folder).expect("a folder").map(|entry| entry.expect("a file").path());
    let images = paths.filter(|path| path.extension().is_some_and(|end| end == "image"));
    images
        .map(|path| {
            let name = path.file_name().expect("a name").to_string_lossy().into_owned();
            (name, fs::read(&path).expect("a file"))
        })
        .collect()
}

fn image(drive: &Drive) -> Vec<u8> {
    let mut buffer = [0; LONGEST];
    let length = drive.image(&mut buffer).expect("a sound drive");
    buffer[..length].to_vec()
}

// 02, Slip 1: "Writing then reading gives back the presets and the cells 100 to 227"
#[test]
fn whole_files_are_read_and_written_again_byte_for_byte() {
    let files = files(&folder());
    assert_eq!(files.len(), whole().len());
    for (name, bytes) in files {
        let drive = Drive::load(&bytes).unwrap_or_else(|refusal| panic!("{name}: {refusal}"));
        assert_eq!(image(&drive), bytes, "{name}");
    }
}

// 02, Slip 1: "10, the only refusal of reading, bytes that the writer makes for no drive"
#[test]
fn damaged_files_are_refused() {
    let files = files(&folder().join("damaged"));
    assert_eq!(files.len(), damaged().len());
    for (name, bytes) in files {
        assert_eq!(Drive::load(&bytes), Err(10), "{name}");
    }
}

#[test]
fn every_file_has_its_line_in_the_readme() {
    let readme = fs::read_to_string(folder().join("README.md")).expect("the README");
    for (name, _) in files(&folder()).iter().chain(&files(&folder().join("damaged"))) {
        let lines = readme.lines().filter(|line| line.contains(&format!("`{name}`")));
        assert_eq!(lines.count(), 1, "{name}");
    }
}

/// Makes the files that are missing. Those that are there stay: they are the images of the first
/// writer, which every later one must read.
#[test]
#[ignore = "makes files"]
fn make_the_missing_files() {
    for (name, texts) in whole() {
        keep(&folder(), name, &written(&texts));
    }
    for (name, bytes) in damaged() {
        keep(&folder().join("damaged"), name, &bytes);
    }
}

fn keep(folder: &Path, name: &str, bytes: &[u8]) {
    let path = folder.join(format!("{name}.image"));
    if !path.exists() {
        fs::write(path, bytes).expect("a file");
    }
}

/// The image of a fresh drive after some strings: a WS stands whole, any other text is a cell, from
/// 100 upward.
fn written(texts: &[String]) -> Vec<u8> {
    let mut drive = Drive::fresh(0).expect("01 takes address 0");
    let mut cell = 100;
    for text in texts {
        let mut buffer = [0; 64];
        let string = if text.starts_with("WS") {
            format!("{:02}{text}\r", drive.presets.address)
        } else {
            cell += 1;
            format!("{:02}WN,{},{text}\r", drive.presets.address, cell - 1)
        };
        let length = drive.string(string.as_bytes(), &mut buffer);
        assert_eq!((length, buffer[2]), (Ok(Some(4)), b'Y'), "{text}");
    }
    image(&drive)
}

const EVERY_CODE: &str = "00,101 01,10,20,+5000,x1,102 31,125,30,-77,x4,103 02,24,42,+,x1,104 \
    32,030,10,-,x4,105 11,30,+8388607,x1,106 21,2181,-9,x4,107 12,02,-,x1,108 22,0318,+,x4,109 \
    03,10,20,+,05,110 05,15,25,-,300,x4,111 57,1,-55,112 58,F3,1,113 60,114 61,300,115 62,150,116 \
    63,S2,0,160,117 65,400,118 70,1,119 69";

const INDEXED_LIMITS: &str = "01,03,10,-8388607,x1,000 01,24,42,+8388607,x4,000 \
    31,030,10,-8388607,x4,000 31,240,42,+8388607,x1,000 11,02,-8388607,x1,000 \
    11,30,+8388607,x4,000 21,0001,-8388607,x4,000 21,4800,+8388607,x1,000 01,10,20,+0,x1,000 \
    31,100,20,-1,x1,000 11,05,+1,x1,000 21,2181,-64,x1,000 21,2181,+63,x1,000 21,2181,+64,x1,000 \
    21,2181,-65,x1,000";

const CAM_ENDS: &str = "57,1,-2147483648,101 57,1,-1,102 57,0,+0,103 57,1,+0,104 57,1,+1,105 \
    57,1,+2147483647,000";

const ZERO_SEARCHES_AND_DELAYED_STOPS: &str = "03,03,10,+,02,101 03,24,42,-,30,102 \
    05,03,10,+,0,x1,103 05,24,42,-,8388607,x4,104 05,10,20,+,127,x1,105 05,10,20,-,128,x4,000";

const DELAYS_AND_LOOPS: &str = "65,0,101 65,1,102 65,127,103 65,128,104 65,16383,105 65,16384,106 \
    65,65535,107 61,1,108 61,127,109 61,128,110 61,16383,111 61,16384,112 61,65535,000";

const LONGER_WAITS: &str = "65,65535,101 65,65536,102 61,65535,103 65,65537,104 \
    11,05,+8388607,x4,105 65,2097151,106 65,2097152,107 62,103,108 65,8388606,109 65,8388607,110 \
    61,65535,111 58,F7,1,112 65,131071,113 05,24,42,-,8388607,x4,114 65,8388607,230";

const LINKS: &str = "00,228 60,229 62,228,230 63,I0,0,229,228 65,1,230 62,100,127 62,230,128 \
    63,F7,1,100,227";

const CODES_01_AND_02: &str = "01,03,10,-8388607,x1,101 01,24,42,+8388607,x4,102 \
    02,03,10,+,x1,103 02,24,42,-,x4,104 01,12,13,+0,x1,105 02,13,31,-,x1,106 31,030,10,+1,x1,107 \
    32,240,42,-,x4,000";

fn whole() -> Vec<(&'static str, Vec<String>)> {
    let words = |text: &str| text.split_whitespace().map(str::to_string).collect::<Vec<String>>();
    let all = |text: &str| vec![text.to_string(); 128];
    vec![
        ("fresh", vec![]),
        ("every-code", words(EVERY_CODE)),
        ("all-69", all("69")),
        ("longest", [words("WS,IN,3 WS,RS,B3"), all("31,240,42,+8388607,x4,230")].concat()),
        ("indexed-limits", words(INDEXED_LIMITS)),
        ("cam-ends", words(CAM_ENDS)),
        ("zero-searches-and-delayed-stops", words(ZERO_SEARCHES_AND_DELAYED_STOPS)),
        ("table-frequencies", (0..128).map(table_frequency).collect()),
        ("names-of-58-and-63", names()),
        ("presets-at-their-ends", words("WS,IN,3 WS,RS,B3 WS,ES,1 WS,CM,1 WS,AD,47")),
        ("presets-at-0", words("WS,IN,0 WS,RS,D0")),
        ("delays-and-loops-at-their-ends", words(DELAYS_AND_LOOPS)),
        ("delay-65535", words("65,65535,000")),
        ("delay-65536", words("65,65536,000")),
        ("delay-8388607", words("65,8388607,000")),
        ("longer-waits", words(LONGER_WAITS)),
        ("all-longest-waits", all("65,8388607,230")),
        ("links-to-228-to-230", words(LINKS)),
        ("label-feeder", (0..30).flat_map(stop).collect()),
        ("codes-01-and-02", words(CODES_01_AND_02)),
    ]
}

/// 21 and 22 in turn, over the table from its first value to its last.
fn table_frequency(place: usize) -> String {
    let frequency = TABLE[place * 598 / 127];
    match place % 2 {
        0 => format!("21,{frequency:04},+{place},x1,000"),
        _ => format!("22,{frequency:04},-,x4,000"),
    }
}

/// 58 and 63 with every name, and with V 0 and 1.
fn names() -> Vec<String> {
    let outputs = "O0 O1 O2 O3 FC F0 F1 F2 F3 F4 F5 F6 F7";
    let inputs = "I0 I1 I2 PX S0 S1 S2 S3 F0 F1 F2 F3 F4 F5 F6 F7";
    let both = |name: &str| [format!("{name},0"), format!("{name},1")];
    let outputs = outputs.split(' ').flat_map(both).map(|fields| format!("58,{fields},000"));
    let inputs = inputs.split(' ').flat_map(both).map(|fields| format!("63,{fields},200,000"));
    outputs.chain(inputs).collect()
}

/// A stop of a label feeder: run, output on, pause, output off.
fn stop(place: usize) -> [String; 4] {
    let cell = 100 + 4 * place;
    let (steps, pause, output) = (800 + 37 * place, 250 * (place % 4), place % 3);
    let next = if place == 29 { 0 } else { cell + 4 };
    [
        format!("21,{:04},+{steps},x1,{}", 1200 + 60 * place, cell + 1),
        format!("58,O{output},1,{}", cell + 2),
        format!("65,{pause},{}", cell + 3),
        format!("58,O{output},0,{next:03}"),
    ]
}

/// A fresh drive's image with some bytes in place of those of cell 100.
fn with_cell(cell: &[u8]) -> Vec<u8> {
    [&[0, 1, 2, 0, 0][..], cell, &[0; 254]].concat()
}

/// A fresh drive's image with another byte as one of its presets.
fn with_preset(place: usize, value: u8) -> Vec<u8> {
    let mut image = with_cell(&[0, 0]);
    image[place] = value;
    image
}

fn damaged() -> Vec<(&'static str, Vec<u8>)> {
    let fresh = with_cell(&[0, 0]);
    vec![
        ("empty", vec![]),
        ("cut", fresh[..260].to_vec()),
        ("byte-after-the-end", [&fresh[..], &[0]].concat()),
        ("two-images", [&fresh[..], &fresh[..]].concat()),
        ("longer-form-of-0", with_cell(&[0, 0x80, 0])),
        ("number-2-to-the-32", with_cell(&[57, 1, 0x80, 0x80, 0x80, 0x80, 0x10, 0])),
        ("ad-48", with_preset(0, 48)),
        ("in-4", with_preset(1, 4)),
        ("rs-8", with_preset(2, 8)),
        ("es-2", with_preset(3, 2)),
        ("cm-2", with_preset(4, 2)),
        ("code-04", with_cell(&[4, 0])),
        ("69-with-a-next", with_cell(&[69, 100])),
        ("ddd-99", with_cell(&[0, 99])),
        ("ddd-231", with_cell(&[0, 0xe7, 1])),
        ("eee-231", with_cell(&[62, 0xe7, 1, 0])),
        ("frequency-319", with_cell(&[21, 0xbf, 2, 0, 0, 0])),
        ("steps-8388608", with_cell(&[11, 5, 0x80, 0x80, 0x80, 8, 0, 0])),
        ("cam-unset-with-a-number", with_cell(&[57, 0, 2, 0])),
        ("loop-0", with_cell(&[61, 0, 0])),
        ("loop-65536", with_cell(&[61, 0x80, 0x80, 4, 0])),
        ("delay-8388608", with_cell(&[65, 0x80, 0x80, 0x80, 4, 0])),
        ("delay-2-to-the-24", with_cell(&[65, 0x80, 0x80, 0x80, 8, 0])),
    ]
}
