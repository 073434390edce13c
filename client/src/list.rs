//! Lists: calls as bytes, many in one request.

use crate::Refusal;

/// The bytes that a list may have.
pub const LIST_BYTES: usize = 16_384;
/// The bytes that what is seen of a list may need.
pub const SEEN_BYTES: usize = 65_536;
/// The buffer that a string needs for its answer.
pub const ANSWER_ROOM: u8 = 64;

/// Calls for one drive, carried out in order by one request. A word that would make the list too
/// long is refused and not added, with the number that the engine would give the whole list.
///
/// ```
/// let mut list = cuminhamper::List::new();
/// list.travel(96)?.millisecond()?.order()?;
/// assert_eq!(list.bytes(), b"G\x60\0\0\0MB");
/// assert_eq!((list.len(), list.room()), (3, 5 + 1 + 17));
/// # Ok::<(), cuminhamper::Refusal>(())
/// ```
#[derive(Clone, Debug, Default, PartialEq, Eq)]
pub struct List {
    bytes: Vec<u8>,
    letters: Vec<u8>,
    room: usize,
}

impl List {
    pub fn new() -> List {
        List::default()
    }

    /// A list from its bytes, for hosts that hand lists on: 100, 101, 102 as the engine refuses
    /// it, 103 where it is too long for a frame.
    pub fn parse(bytes: &[u8]) -> Result<List, Refusal> {
        if bytes.len() > LIST_BYTES {
            return Err(Refusal::LongFrame);
        }
        let mut list = List::new();
        let mut rest = bytes;
        while !rest.is_empty() {
            let (word, others) = rest.split_at(word_length(rest)?);
            list.push(word[0], &word[1..], &[])?;
            rest = others;
        }
        Ok(list)
    }

    /// A string with its byte 13, and the bytes of its answer buffer ([`ANSWER_ROOM`]).
    pub fn string(&mut self, text: &[u8], room: u8) -> Result<&mut List, Refusal> {
        let length = u16::try_from(text.len()).map_err(|_| Refusal::LongFrame)?;
        let [low, high] = length.to_le_bytes();
        self.push(b'S', &[room, low, high], text)
    }

    /// An inputs word: I0, I1, I2, PX, S0 to S3, ST, ES, EE from bit 0.
    pub fn inputs(&mut self, word: u16) -> Result<&mut List, Refusal> {
        self.push(b'I', &word.to_le_bytes(), &[])
    }

    pub fn millisecond(&mut self) -> Result<&mut List, Refusal> {
        self.push(b'M', &[], &[])
    }

    /// From the board: a step was made.
    pub fn step(&mut self) -> Result<&mut List, Refusal> {
        self.push(b'P', &[], &[])
    }

    /// From the board: the ramp is done.
    pub fn at_speed(&mut self) -> Result<&mut List, Refusal> {
        self.push(b'A', &[], &[])
    }

    /// From the board: the motor stands after slowing.
    pub fn halted(&mut self) -> Result<&mut List, Refusal> {
        self.push(b'H', &[], &[])
    }

    /// Milliseconds until idle, moving or the budget is spent.
    pub fn wait(&mut self, budget: u32) -> Result<&mut List, Refusal> {
        self.push(b'W', &budget.to_le_bytes(), &[])
    }

    /// The order to the board and the outputs.
    pub fn order(&mut self) -> Result<&mut List, Refusal> {
        self.push(b'B', &[], &[])
    }

    /// Steps: until n are given, the run is over, the present cell is another or an output has
    /// changed.
    pub fn travel(&mut self, n: u32) -> Result<&mut List, Refusal> {
        self.push(b'G', &n.to_le_bytes(), &[])
    }

    /// Takes all words off and keeps the memory, so that a list can be made again without
    /// allocating.
    pub fn clear(&mut self) {
        self.bytes.clear();
        self.letters.clear();
        self.room = 0;
    }

    pub fn bytes(&self) -> &[u8] {
        &self.bytes
    }

    /// The letter of each word, in order.
    pub fn letters(&self) -> &[u8] {
        &self.letters
    }

    /// How many words there are.
    pub fn len(&self) -> usize {
        self.letters.len()
    }

    pub fn is_empty(&self) -> bool {
        self.letters.is_empty()
    }

    /// The bytes that what is seen of the list has at most.
    pub fn room(&self) -> usize {
        self.room
    }

    fn push(&mut self, letter: u8, head: &[u8], text: &[u8]) -> Result<&mut List, Refusal> {
        if self.bytes.len() + 1 + head.len() + text.len() > LIST_BYTES {
            return Err(Refusal::LongFrame);
        }
        let room = self.room + seen_at_most(letter);
        if room > SEEN_BYTES {
            return Err(Refusal::Room);
        }
        self.bytes.push(letter);
        self.bytes.extend_from_slice(head);
        self.bytes.extend_from_slice(text);
        self.letters.push(letter);
        self.room = room;
        Ok(self)
    }
}

/// The length of the first word of a list that is not empty.
fn word_length(bytes: &[u8]) -> Result<usize, Refusal> {
    let length = match bytes[0] {
        b'M' | b'P' | b'A' | b'H' | b'B' => 1,
        b'I' => 3,
        b'W' | b'G' => 5,
        b'S' if bytes.len() < 4 => return Err(Refusal::CutWord),
        b'S' => 4 + usize::from(u16::from_le_bytes([bytes[2], bytes[3]])),
        _ => return Err(Refusal::Letter),
    };
    if length > bytes.len() {
        return Err(Refusal::CutWord);
    }
    Ok(length)
}

/// What is seen of a word has at most so many bytes.
fn seen_at_most(letter: u8) -> usize {
    match letter {
        b'S' => 2 + usize::from(ANSWER_ROOM),
        b'W' => 6,
        b'B' => 17,
        b'G' => 5,
        _ => 1,
    }
}
