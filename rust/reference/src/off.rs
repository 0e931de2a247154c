//! L6, reading OFF files: checks 24 to 26, then those of a mesh, and the lists; what the program `off2dms` does with a
//! text. The words are made first, all of them, and then taken one after the other.

use crate::check::check_mesh;
use crate::{encode, refuse, Lists, Refusal, MAX_CORNERS, MAX_FACES, MAX_VERTICES, PLAIN};

/// The lists of an OFF text.
#[derive(Clone, Debug, Default, PartialEq, Eq)]
pub struct OffLists {
    pub coordinates: Vec<i32>,
    pub sides: Vec<u8>,
    pub corners: Vec<u16>,
    pub sharpness: Vec<u8>,
}

impl OffLists {
    pub fn lists(&self) -> Lists<'_> {
        Lists { coordinates: &self.coordinates, sides: &self.sides, corners: &self.corners, sharpness: &self.sharpness }
    }
}

/// The words of a text: of every line what stands before its first #, parted at separators.
fn words(text: &[u8]) -> Vec<&[u8]> {
    text.split(|&byte| byte == b'\n')
        .map(|line| line.split(|&byte| byte == b'#').next().expect("a first part"))
        .flat_map(|line| line.split(|byte| b" \t\r".contains(byte)))
        .filter(|word| !word.is_empty())
        .collect()
}

/// The number that a word is: one to nine digits after an optional minus.
fn number(word: &[u8]) -> Option<i32> {
    let digits = word.strip_prefix(b"-").unwrap_or(word);
    if digits.is_empty() || digits.len() > 9 || !digits.iter().all(u8::is_ascii_digit) {
        return None;
    }
    std::str::from_utf8(word).expect("a minus and digits").parse().ok()
}

/// The words that are still to be taken, with the number of the next.
struct Taker<'a> {
    words: std::vec::IntoIter<&'a [u8]>,
    next: usize,
}

impl Taker<'_> {
    /// The next word as a number that serves.
    fn take(&mut self, serves: impl Fn(i32) -> bool) -> Result<i32, Refusal> {
        match self.words.next().and_then(number).filter(|&value| serves(value)) {
            Some(value) => {
                self.next += 1;
                Ok(value)
            }
            None => refuse(25, self.next),
        }
    }

    fn natural(&mut self, most: i32) -> Result<usize, Refusal> {
        Ok(self.take(|value| (0..=most).contains(&value))? as usize)
    }
}

/// The least lengths of lent lists.
const SPACES: [usize; 4] = [3 * MAX_VERTICES, MAX_FACES, MAX_CORNERS, 2 * MAX_CORNERS];

/// The lists of a text, for lent lists of these lengths.
pub fn off(text: &[u8], spaces: [usize; 4]) -> Result<OffLists, Refusal> {
    if spaces.iter().zip(SPACES).any(|(&space, least)| space < least) {
        return refuse(24, 0);
    }
    let read = drawn(text)?;
    check_mesh(read.lists())?;
    Ok(read)
}

/// The lists as the words say them: checks 24 to 26 of the text alone.
fn drawn(text: &[u8]) -> Result<OffLists, Refusal> {
    let mut words = words(text).into_iter();
    if words.next() != Some(b"OFF") {
        return refuse(24, 0);
    }
    let mut taker = Taker { words, next: 1 };
    let vertices = taker.natural(65_535)?;
    let faces = taker.natural(65_535)?;
    taker.natural(65_535)?;
    let mut read = OffLists::default();
    for _ in 0..3 * vertices {
        read.coordinates.push(taker.take(|_| true)?);
    }
    for _ in 0..faces {
        let sides = taker.natural(255)?;
        read.sides.push(sides as u8);
        for _ in 0..sides {
            read.corners.push(taker.natural(65_535)? as u16);
        }
    }
    if taker.words.next().is_some() {
        return refuse(26, taker.next);
    }
    read.sharpness = vec![PLAIN; 2 * read.corners.len()];
    Ok(read)
}

/// The lists as drawn, with check 4 of their lengths.
fn counted(text: &[u8]) -> Result<OffLists, Refusal> {
    let read = drawn(text)?;
    let lengths = [read.coordinates.len(), read.sides.len(), read.corners.len()];
    if lengths.iter().zip(SPACES).any(|(&length, most)| length == 0 || length > most) {
        return refuse(4, 0);
    }
    Ok(read)
}

/// The file of a text, or the line that says why there is none.
fn file_of(text: &[u8], read: impl Fn(&[u8]) -> Result<OffLists, Refusal>) -> Result<Vec<u8>, String> {
    if text.len() > 1 << 20 {
        return Err("standard input: longer than 1048576 bytes\n".to_string());
    }
    match read(text) {
        Ok(read) => Ok(encode(read.lists(), 1)),
        Err(Refusal { number, place }) => Err(format!("refused {number} {place}\n")),
    }
}

/// What `off2dms` writes of a text: the file on standard output, or a line on standard error.
pub fn off2dms(text: &[u8]) -> Result<Vec<u8>, String> {
    file_of(text, |text| off(text, SPACES))
}

/// The same of `off2dms as-drawn`.
pub fn off2dms_as_drawn(text: &[u8]) -> Result<Vec<u8>, String> {
    file_of(text, counted)
}
