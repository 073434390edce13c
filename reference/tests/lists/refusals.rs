//! Lists that are refused whole: which number, and that nothing is changed.

use crate::notation::list;
use crate::{fresh, string, string_with_room, travel_word, wait_word, ROOM};
use reference::lists::perform;
use reference::memory::Drive;

/// The list would change the drive at its first word, and is refused by the number.
fn refused(rest: &[u8], room: usize, number: u8) {
    let drive = list("s 00WN,100,65,9,000; s 00PS,100; M");
    let mut after = drive;
    let words = [b"M", rest].concat();
    assert_eq!(perform(&mut after, &words, room), Err(number), "{words:x?}");
    assert_eq!(after, drive);
}

#[test]
fn bytes_that_are_no_letter() {
    let others = (0..=255).filter(|byte| !b"SIMPAHWBG".contains(byte));
    others.for_each(|byte| refused(&[byte], ROOM, 100));
    refused(b"m", ROOM, 100);
    refused(b"MPZ", ROOM, 100);
    refused(b"\rM", ROOM, 100);
}

#[test]
fn every_word_that_is_cut() {
    let whole = [string("00QA"), b"I\x01\0".to_vec(), wait_word(1), travel_word(1)];
    for word in whole {
        (1..word.len()).for_each(|length| refused(&word[..length], ROOM, 101));
    }
    refused(b"S\x40\xff\xff00EE\r", ROOM, 101);
}

#[test]
fn a_short_buffer_of_each_word() {
    let most: [(&[u8], usize); 9] = [
        (&string("00QA"), 66),
        (b"I\0\0", 1),
        (b"M", 1),
        (b"P", 1),
        (b"A", 1),
        (b"H", 1),
        (&wait_word(1), 6),
        (b"B", 17),
        (&travel_word(1), 5),
    ];
    for (word, bytes) in most {
        // The M in front has one byte.
        (0..=bytes).for_each(|room| refused(word, room, 102));
        let mut drive = fresh();
        assert!(perform(&mut drive, word, bytes).is_ok());
        let twice = [word, word].concat();
        assert_eq!(perform(&mut drive, &twice, 2 * bytes - 1), Err(102));
        assert!(perform(&mut drive, &twice, 2 * bytes).is_ok());
    }
}

// A string's room counts nowhere: 66 is what the table has.
#[test]
fn a_string_takes_66_bytes_of_the_buffer_whatever_its_room() {
    for room in [0, 64, 255] {
        let word = string_with_room(room, b"");
        assert_eq!(perform(&mut fresh(), &word, 65), Err(102));
        assert!(perform(&mut fresh(), &word, 66).is_ok());
    }
}

// PROTOCOL: "The first word at which one of the last three holds decides, and there the least
// number."
#[test]
fn the_first_word_decides_and_there_the_least_number() {
    refused(b"Z", 1, 100);
    refused(b"ZM", 0, 102);
    refused(b"W", 1, 101);
    refused(b"W\0\0\0\0Z", 1, 102);
    refused(b"W\0\0\0\0Z", 7, 100);
    refused(b"BW", 17, 102);
    refused(b"BW", 18, 101);
    refused(b"WZ", ROOM, 101);
    refused(b"G\0\0\0", ROOM, 101);
    refused(b"ZW", ROOM, 100);
}

// 01: "2, drive unsound", before all else
#[test]
fn an_unsound_drive_refuses_every_list_first() {
    let mut unsound: Drive = fresh();
    unsound.presets.current = 4;
    let before = unsound;
    for words in [b"".as_slice(), b"M", b"B", b"Z", b"W", b"S"] {
        for room in [0, ROOM] {
            assert_eq!(perform(&mut unsound, words, room), Err(2));
            assert_eq!(unsound, before);
        }
    }
}
