//! Frames: each kind, each status, and how they come and end.

use crate::notation::list;
use crate::{fresh, string};
use reference::frames::{respond, serve};
use reference::memory::Drive;
use std::io::{self, Read};

fn framed(request: &[u8]) -> Vec<u8> {
    [&(request.len() as u32).to_le_bytes()[..], request].concat()
}

/// What is written for an input.
fn served(input: &[u8]) -> Vec<u8> {
    let mut output = Vec::new();
    serve(input, &mut output);
    output
}

/// The answers to some requests, each with its status first.
fn answers(requests: &[&[u8]]) -> Vec<Vec<u8>> {
    let output = served(&requests.iter().flat_map(|request| framed(request)).collect::<Vec<_>>());
    let mut rest = &output[..];
    let mut answers = Vec::new();
    while let Some((length, after)) = rest.split_first_chunk() {
        let (answer, after) = after.split_at(u32::from_le_bytes(*length) as usize);
        answers.push(answer.to_vec());
        rest = after;
    }
    assert!(rest.is_empty());
    answers
}

fn answer(request: &[u8]) -> Vec<u8> {
    answers(&[request]).concat()
}

#[test]
fn the_version() {
    assert_eq!(served(b"\x01\0\0\0V"), b"\x02\0\0\0\0\x01");
}

#[test]
fn a_list_on_the_drive_of_address_0_that_is_there_at_first() {
    let request = [b"L".to_vec(), string("00QA"), b"PB".to_vec()].concat();
    let order = [0, 0, 1, 0, 0, 0, 0, 0, 0, 0, 0, 0, 0, 0, 0, 0, 0];
    assert_eq!(answer(&request), [&b"\0\0\x0800QA,+0\r\x05"[..], &order].concat());
    assert_eq!(answer(b"L"), [0]);
}

// 01: "1, address above 47"
#[test]
fn a_fresh_drive() {
    let asked = [b"L".to_vec(), string("47QS,AD")].concat();
    let seen = answers(&[b"F\x2f", &asked, b"F\x30", &asked, b"F\xff", b"F\0", &asked]);
    let told = b"\0\0\x0b47QS,AD,47\r".to_vec();
    let silent = b"\0\0\0".to_vec();
    assert_eq!(seen, [vec![0], told.clone(), vec![1], told, vec![1], vec![0], silent]);
}

// 02, Slip 1
#[test]
fn an_image_written_and_read() {
    let drive = list("s 00WS,AD,7; s 07WN,100,65,300,101; s 07WN,228,60,000");
    let mut buffer = [0; 2048];
    let length = drive.image(&mut buffer).expect("a sound drive");
    let image = &buffer[..length];
    let read = [b"R", image].concat();
    assert_eq!(answers(&[&read, b"X"]), [vec![0], [&[0], image].concat()]);
    let mut loaded = fresh();
    assert_eq!(respond(&mut loaded, &read), Ok(Vec::new()));
    assert_eq!(Ok(loaded), Drive::load(image));
}

#[test]
fn a_damaged_image_leaves_the_drive() {
    let drive = list("s 00WN,100,65,9,000; s 00PS,100; M");
    let mut after = drive;
    for image in [b"R".as_slice(), b"R\0", &[b'R'; 300]] {
        assert_eq!(respond(&mut after, image), Err(10));
        assert_eq!(after, drive);
    }
}

#[test]
fn a_refused_list_leaves_the_drive() {
    let drive = list("s 00WN,100,65,9,000; s 00PS,100; M");
    let mut after = drive;
    let orders = [&b"LM"[..], &[b'B'; 3_855]].concat();
    assert_eq!(respond(&mut after, b"LMZ"), Err(100));
    assert_eq!(respond(&mut after, b"LMW"), Err(101));
    assert_eq!(respond(&mut after, &[&orders[..], b"M"].concat()), Err(102));
    assert_eq!(after, drive);
    assert_eq!(respond(&mut after, &orders).map(|seen| seen.len()), Ok(65_536));
    assert_ne!(after, drive);
}

#[test]
fn an_unsound_drive_refuses_lists_and_its_image() {
    let mut unsound = fresh();
    unsound.presets.current = 4;
    assert_eq!(respond(&mut unsound, b"L"), Err(2));
    assert_eq!(respond(&mut unsound, b"X"), Err(2));
    assert_eq!(respond(&mut unsound, b"F\x05"), Ok(Vec::new()));
    assert_eq!(Ok(unsound), Drive::fresh(5));
}

#[test]
fn frames_that_are_none() {
    let kinds = (0..=255).filter(|kind| !b"VFLRX".contains(kind));
    kinds.for_each(|kind| assert_eq!(answer(&[kind]), [104], "{kind}"));
    for wrong in [b"".as_slice(), b"V\x01", b"F", b"F\0\0", b"X\0", b"v"] {
        assert_eq!(answer(wrong), [104], "{wrong:x?}");
    }
}

#[test]
fn the_longest_frame_and_one_longer() {
    let longest = [&b"L"[..], &[b'M'; 16_384]].concat();
    let longer = [&b"L"[..], &[b'M'; 16_385]].concat();
    let much_longer = vec![0; 100_000];
    let seen = answers(&[&longest, &longer, &much_longer, b"V"]);
    assert_eq!(seen, [vec![0; 16_385], vec![103], vec![103], vec![0, 1]]);
}

// PROTOCOL: "the input ended within a frame; this is the last answer"
#[test]
fn an_input_that_ends_within_a_frame() {
    let whole = [framed(b"V"), framed(b"LMM")].concat();
    for length in 0..=whole.len() {
        let mut expected = if length >= 5 { b"\x02\0\0\0\0\x01".to_vec() } else { Vec::new() };
        match length {
            0 | 5 => {}
            12 => expected.extend(b"\x03\0\0\0\0\0\0"),
            _ => expected.extend(b"\x01\0\0\0\x69"),
        }
        assert_eq!(served(&whole[..length]), expected, "{length}");
    }
    assert_eq!(served(&[&20_000u32.to_le_bytes()[..], &[0; 19_999]].concat()), b"\x01\0\0\0\x69");
    assert_eq!(served(&u32::MAX.to_le_bytes()), b"\x01\0\0\0\x69");
}

/// Hands over one byte at a read, and interrupts each second read.
struct Slow<'a>(&'a [u8], bool);

impl Read for Slow<'_> {
    fn read(&mut self, buffer: &mut [u8]) -> io::Result<usize> {
        self.1 = !self.1;
        if self.1 {
            return Err(io::ErrorKind::Interrupted.into());
        }
        let length = buffer.len().min(1);
        self.0.read(&mut buffer[..length])
    }
}

#[test]
fn frames_that_come_byte_by_byte() {
    let long = vec![1; 16_400];
    let frames: Vec<u8> =
        [&b"V"[..], b"LMMB", b"", &long, b"F\x03"].iter().flat_map(|frame| framed(frame)).collect();
    for input in [&frames[..], &frames[..frames.len() - 1], &frames[..30]] {
        let mut output = Vec::new();
        serve(Slow(input, false), &mut output);
        assert_eq!(output, served(input));
    }
}

/// Takes so many bytes and no more.
struct Full(usize);

impl io::Write for Full {
    fn write(&mut self, bytes: &[u8]) -> io::Result<usize> {
        let taken = bytes.len().min(self.0);
        self.0 -= taken;
        Ok(taken)
    }

    fn flush(&mut self) -> io::Result<()> {
        Ok(())
    }
}

// PROTOCOL: "and so does an output that takes no more"
#[test]
fn an_output_that_takes_no_more_ends_the_service() {
    // An input without an end.
    for room in 0..20 {
        serve(io::Cursor::new(framed(b"V")).chain(io::repeat(0)), Full(room));
    }
}
