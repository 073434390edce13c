//! Random request frames of the protocol of lists. The calls are those of random scripts, many in a
//! list; between them stand lists and frames that are refused, and others at the limits.
//!
//! A drive is carried through the frames, and the scripts go on from it, so that programs really run.

use super::random::Random;
use super::{images::image_of, Generator};
use crate::frames::{respond, MOST_REQUEST, MOST_SEEN};
use crate::lists::{perform, travel, words};
use crate::memory::{Drive, Remaining};
use crate::replay::bytes;
use std::collections::VecDeque;

/// The bytes of so many frames, always the same for the same seed. Now and then the beginning of
/// another frame follows, at which the input ends.
pub fn frames(seed: u64, count: usize) -> Vec<u8> {
    let mut writer = Writer::new(seed, count);
    while writer.left > 0 {
        writer.list_of_calls();
        if writer.random.once_in(4) {
            let odd = writer.random.weighted(&ODD);
            odd(&mut writer);
        }
    }
    if writer.random.once_in(4) {
        writer.cut_frame();
    }
    writer.bytes
}

struct Writer {
    random: Random,
    script: Generator,
    /// Lines of the script that are in no frame yet.
    lines: VecDeque<String>,
    /// The drive after all words and frames so far.
    drive: Drive,
    /// The list that is being filled, and how many bytes may be seen of it.
    list: Vec<u8>,
    most: usize,
    bytes: Vec<u8>,
    /// The frames that are still to be written.
    left: usize,
}

type Odd = fn(&mut Writer);

const ODD: [(usize, Odd); 11] = [
    (6, Writer::unknown_word),
    (6, Writer::cut_word),
    (2, Writer::short_buffer),
    (1, Writer::full_buffer),
    (1, Writer::longest_list),
    (2, Writer::long_frame),
    (6, Writer::wrong_frame),
    (3, |writer| writer.frame(b"")),
    (3, |writer| writer.frame(b"V")),
    (4, Writer::image_back),
    (1, |writer| writer.frame(b"L")),
];

const LETTERS: &[u8] = b"SIMPAHWBG";

impl Writer {
    fn new(seed: u64, count: usize) -> Writer {
        let script = Generator::new(seed, usize::MAX);
        Writer {
            random: Random::new(seed.rotate_left(32)),
            lines: script.lines.lines().map(str::to_string).collect(),
            script,
            drive: Drive::fresh(0).expect("01 takes address 0"),
            list: Vec::new(),
            most: 0,
            bytes: Vec::new(),
            left: count,
        }
    }

    fn next_line(&mut self) -> String {
        loop {
            match self.lines.pop_front() {
                Some(line) => return line,
                None => self.next_lines(),
            }
        }
    }

    /// The script's next calls, on the drive as it is. No list makes a raw write, so such calls are
    /// left out whole.
    fn next_lines(&mut self) {
        self.script.lines.clear();
        self.script.drive = self.drive;
        self.script.next_call();
        let lines: Vec<&str> = self.script.lines.lines().collect();
        if !lines.iter().any(|line| line.starts_with('K')) {
            self.lines.extend(lines.into_iter().map(str::to_string));
        }
    }

    /// One list of a few calls or of many, with the frames that the script has between them.
    fn list_of_calls(&mut self) {
        let most = self.random.pick(&[1, 4, 20, 60, 200]);
        for _ in 0..1 + self.random.below(most) {
            let line = self.next_line();
            self.call(&line);
        }
        self.end_list();
    }

    /// A line of a script as a word or a frame. Those that the protocol has not are passed over.
    fn call(&mut self, line: &str) {
        let words: Vec<&str> = line.split(' ').collect();
        match words[0] {
            "P" => self.step_or_travel(),
            "F" => self.frame_after_list(&[b'F', number(words[1]).min(255) as u8]),
            "L" => {
                let image = bytes(words[1], usize::MAX).expect("an image of a script is hex");
                self.frame_after_list(&request(b'R', &image));
            }
            "O" | "X" => self.frame_after_list(b"X"),
            _ => {
                if let Some(word) = word(&words) {
                    self.word(&word);
                }
            }
        }
    }

    /// Adds a word to the list. One list takes no more than a frame and an answer have room for.
    fn word(&mut self, word: &[u8]) {
        let most: usize = words(word).flatten().map(|word| word.most()).sum();
        let full = self.most + most > MOST_SEEN;
        if full || self.list.len() + word.len() >= MOST_REQUEST as usize {
            self.end_list();
        }
        self.list.extend(word);
        self.most += most;
        let _ = perform(&mut self.drive, word, MOST_SEEN);
        if word != b"B" && self.random.once_in(6) {
            self.word(b"B");
        }
    }

    fn step_or_travel(&mut self) {
        if self.random.once_in(2) {
            return self.word(b"P");
        }
        let most = self.travel_length();
        self.word(&[&b"G"[..], &most.to_le_bytes()].concat());
        while self.lines.front().is_some_and(|line| line == "P") && !self.random.once_in(4) {
            self.lines.pop_front();
        }
    }

    /// A few steps, a millisecond's worth, the rest of the run or one more or less, or as many as
    /// there may be. A travel that goes on is not made long: frames are run by the thousand.
    fn travel_length(&mut self) -> u32 {
        const SOON: u32 = 5_000;
        let rest = match self.drive.running.remaining {
            Remaining::Steps(steps) => steps.unsigned_abs(),
            _ => 0,
        };
        let asked = match self.random.below(12) {
            0 => 0,
            1 => 1,
            2..=5 => self.random.between(2, 12) as u32,
            6 | 7 => 96,
            8 => self.random.between(13, 2_000) as u32,
            9 => rest.saturating_sub(1),
            10 => self.random.pick(&[rest, rest + 1]),
            _ => u32::MAX,
        };
        let ends_soon = travel(&mut self.drive.clone(), SOON) < SOON;
        if ends_soon {
            asked
        } else {
            asked.min(SOON)
        }
    }

    /// Writes the list down. Its words are carried out already.
    fn end_list(&mut self) {
        if !self.list.is_empty() {
            let list = std::mem::take(&mut self.list);
            self.most = 0;
            self.write(&request(b'L', &list));
        }
    }

    fn frame_after_list(&mut self, request: &[u8]) {
        self.end_list();
        self.frame(request);
    }

    /// A frame between lists.
    fn frame(&mut self, request: &[u8]) {
        self.write(request);
        let _ = respond(&mut self.drive, request);
    }

    /// Nothing is written where there are enough.
    fn write(&mut self, request: &[u8]) {
        if self.left > 0 {
            self.left -= 1;
            self.bytes.extend((request.len() as u32).to_le_bytes());
            self.bytes.extend(request);
        }
    }

    /// Words of the script that are not carried out, each for itself.
    fn refused_words(&mut self) -> Vec<Vec<u8>> {
        let mut made = Vec::new();
        while made.is_empty() || !self.random.once_in(4) {
            let line = self.next_line();
            made.extend(word(&line.split(' ').collect::<Vec<_>>()));
        }
        made
    }

    /// A byte that is no letter, in front of a word or behind the last.
    fn unknown_word(&mut self) {
        let mut words = self.refused_words();
        let place = self.random.below(words.len() + 1);
        let mut byte = self.random.below(256) as u8;
        if LETTERS.contains(&byte) {
            byte = byte.to_ascii_lowercase();
        }
        words.insert(place, vec![byte]);
        self.frame(&request(b'L', &words.concat()));
    }

    /// The last word lacks bytes, or a string says that it is longer than the list.
    fn cut_word(&mut self) {
        let mut list = self.refused_words().concat();
        let last: &[u8] = self.random.pick(&[
            b"S\x40\x04\x0000QA".as_slice(),
            b"I\x01\x00",
            b"W\x05\x00\x00\x00",
            b"G\x60\x00\x00\x00",
            b"S\x40\xff\xff00EE\r\x00",
        ]);
        list.extend(&last[..1 + self.random.below(last.len() - 1)]);
        self.frame(&request(b'L', &list));
    }

    /// More than an answer has room for, by one byte or by many; at times with another fault behind
    /// the place or before it.
    fn short_buffer(&mut self) {
        let mut list = self.refused_words().concat();
        let most: usize = words(&list).flatten().map(|word| word.most()).sum();
        let orders = (MOST_SEEN - most) / 17;
        list.extend(vec![b'B'; orders]);
        list.extend(vec![b'M'; MOST_SEEN - most - 17 * orders]);
        let fault = self.random.pick(&[b"M".as_slice(), b"B", b"BZ", b"MG", b"G\x01", b"Z", b"S"]);
        list.extend(fault);
        self.frame(&request(b'L', &list));
    }

    /// Exactly what an answer has room for.
    fn full_buffer(&mut self) {
        let orders = MOST_SEEN / 17;
        let list = [vec![b'B'; orders], vec![b'M'; MOST_SEEN - 17 * orders]].concat();
        self.frame(&request(b'L', &list));
    }

    fn longest_list(&mut self) {
        let letter = self.random.pick(b"MPAH");
        self.frame(&request(b'L', &vec![letter; MOST_REQUEST as usize - 1]));
    }

    /// A frame above the limit, whose bytes would be frames themselves.
    fn long_frame(&mut self) {
        let over = self.random.pick(&[1, 2, 5, 3_000, 60_000]);
        let length = MOST_REQUEST as usize + over;
        let like_frames: Vec<u8> =
            b"\x02\x00\x00\x00LM".iter().copied().cycle().take(length).collect();
        self.write(&like_frames);
    }

    /// A kind that there is none of, or a rest that is longer or shorter than its kind has.
    fn wrong_frame(&mut self) {
        let fixed: &[u8] = self.random.pick(&[
            b"V\x01".as_slice(),
            b"F",
            b"F\x00\x00",
            b"X\x00",
            b"v",
            b"l",
            b"Q",
            b"S",
            b"\x00",
            b"\xffM",
        ]);
        self.frame(fixed);
    }

    /// The drive's own image: as it is, with a byte too many, or with one changed.
    fn image_back(&mut self) {
        let mut image = image_of(&self.drive);
        match self.random.below(3) {
            0 => {}
            1 => image.push(0),
            _ => {
                let place = self.random.below(image.len());
                image[place] ^= 1 << self.random.below(8);
            }
        }
        self.frame(&request(b'R', &image));
    }

    /// The beginning of a frame, after which the input ends.
    fn cut_frame(&mut self) {
        let whole: Vec<u8> = match self.random.below(3) {
            0 => b"\x09\x00\x00\x00LMMMBBBMM".to_vec(),
            1 => [&20_000u32.to_le_bytes()[..], &[b'M'; 20_000]].concat(),
            _ => b"\x02\x00\x00\x00F\x05".to_vec(),
        };
        let length = match self.random.below(3) {
            0 => 1 + self.random.below(4),
            1 => whole.len() - 1,
            _ => 1 + self.random.below(whole.len() - 1),
        };
        self.bytes.extend(&whole[..length]);
    }
}

fn request(kind: u8, rest: &[u8]) -> Vec<u8> {
    [&[kind], rest].concat()
}

/// A number of a script.
fn number(word: &str) -> u32 {
    word.parse().expect("a number of a script is decimal")
}

/// The word of a call of a script; nothing where the protocol has no such word. A number that the
/// word cannot hold becomes the largest that it can.
fn word(call: &[&str]) -> Option<Vec<u8>> {
    Some(match call {
        ["S", hex, room, _] => string_word(hex, number(room).min(255) as u8),
        ["I", word] => {
            let word = number(word).min(u16::MAX.into()) as u16;
            [&b"I"[..], &word.to_le_bytes()].concat()
        }
        ["W", budget] => [&b"W"[..], &number(budget).to_le_bytes()].concat(),
        ["M" | "P" | "A" | "H" | "B"] => call[0].as_bytes().to_vec(),
        _ => return None,
    })
}

fn string_word(hex: &str, room: u8) -> Vec<u8> {
    let text = bytes(hex, usize::MAX).expect("a string of a script is hex");
    let length = (text.len() as u16).to_le_bytes();
    [&[b'S', room], &length[..], &text].concat()
}
