//! The file of 01, in L8's two versions: reading it into lent lists, writing it, and the lines that the programs print of it.

use std::fmt::Write;

use crate::check::{check_mesh, links_of};
use crate::squares::{irregular, line};
use crate::surface::{build, NUMBERS_PER_CORNER};
use crate::{refuse, Lists, Refusal, MAX_CORNERS, MAX_FACES, MAX_VERTICES, MOST, PLAIN};

const HEADER: usize = 11;
/// The refusal of a lent list that is too short for the file; 01 has no number for it.
pub const LENT_TOO_SHORT: u32 = 255;

/// The lengths of the four lists that a file holds.
#[derive(Clone, Copy, Debug, PartialEq, Eq)]
pub struct Lengths {
    pub coordinates: usize,
    pub sides: usize,
    pub corners: usize,
    pub sharpness: usize,
}

/// The four lists that a file holds, and its version.
pub(crate) struct Held {
    pub(crate) coordinates: Vec<i32>,
    pub(crate) sides: Vec<u8>,
    pub(crate) corners: Vec<u16>,
    pub(crate) sharpness: Vec<u8>,
    pub(crate) version: usize,
}

impl Held {
    pub(crate) fn lists(&self) -> Lists<'_> {
        Lists { coordinates: &self.coordinates, sides: &self.sides, corners: &self.corners, sharpness: &self.sharpness }
    }
}

/// The lists of a file without a fault of 1 to 4. The file is the first `length` of the bytes; a file of which not all
/// bytes are held is turned down as one of another length (3), after 4.
pub(crate) fn held(bytes: &[u8], length: u64) -> Result<Held, Refusal> {
    let held = bytes.len().min(usize::try_from(length).unwrap_or(usize::MAX));
    let bytes = &bytes[..held];
    if held < HEADER || !bytes.starts_with(b"DMS") {
        return refuse(1, 0);
    }
    let short = |at: usize| u16::from_le_bytes([bytes[at], bytes[at + 1]]);
    let version = usize::from(short(3));
    let per_corner = match version {
        1 => 2,
        2 => 2 + 2,
        _ => return refuse(2, 0),
    };
    let [vertices, faces, corners] = [5, 7, 9].map(|at| usize::from(short(at)));
    let asked = HEADER + 12 * vertices + faces + per_corner * corners;
    if length != asked as u64 {
        return refuse(3, 0);
    }
    let within = |count: usize, most: usize| (1..=most).contains(&count);
    if !(within(vertices, MAX_VERTICES) && within(faces, MAX_FACES) && within(corners, MAX_CORNERS)) {
        return refuse(4, 0);
    }
    if held != asked {
        return refuse(3, 0);
    }
    let (coordinates, rest) = bytes[HEADER..].split_at(12 * vertices);
    let (sides, rest) = rest.split_at(faces);
    let (numbers, sharpness) = rest.split_at(2 * corners);
    Ok(Held {
        coordinates: coordinates.chunks_exact(4).map(|b| i32::from_le_bytes([b[0], b[1], b[2], b[3]])).collect(),
        sides: sides.to_vec(),
        corners: numbers.chunks_exact(2).map(|b| u16::from_le_bytes([b[0], b[1]])).collect(),
        sharpness: if version == 1 { vec![PLAIN; 2 * corners] } else { sharpness.to_vec() },
        version,
    })
}

/// The lists of a file without a fault of 1 to 13 and 28.
pub(crate) fn read(bytes: &[u8], length: u64) -> Result<Held, Refusal> {
    let held = held(bytes, length)?;
    check_mesh(held.lists())?;
    Ok(held)
}

/// Reads a file into the beginnings of four lent lists, or leaves them as they are and says why.
pub fn decode(
    bytes: &[u8],
    length: u64,
    coordinates: &mut [i32],
    sides: &mut [u8],
    corners: &mut [u16],
    sharpness: &mut [u8],
) -> Result<Lengths, Refusal> {
    let held = read(bytes, length)?;
    let lengths = Lengths {
        coordinates: held.coordinates.len(),
        sides: held.sides.len(),
        corners: held.corners.len(),
        sharpness: held.sharpness.len(),
    };
    let lent = [coordinates.len(), sides.len(), corners.len(), sharpness.len()];
    let asked = [lengths.coordinates, lengths.sides, lengths.corners, lengths.sharpness];
    for (lent, asked) in lent.into_iter().zip(asked) {
        if lent < asked {
            return refuse(LENT_TOO_SHORT, asked);
        }
    }
    coordinates[..lengths.coordinates].copy_from_slice(&held.coordinates);
    sides[..lengths.sides].copy_from_slice(&held.sides);
    corners[..lengths.corners].copy_from_slice(&held.corners);
    sharpness[..lengths.sharpness].copy_from_slice(&held.sharpness);
    Ok(lengths)
}

/// What `inspect` prints of a mesh: its size, and for each m the vertices with m corners and the faces with m sides.
#[derive(Clone, Debug, PartialEq, Eq)]
pub struct Counts {
    pub vertices: usize,
    pub faces: usize,
    pub corners: usize,
    pub by_number: [(usize, usize); MOST + 1],
}

/// The counts of a file, or its refusal.
pub fn summary(bytes: &[u8], length: u64) -> Result<Counts, Refusal> {
    let Held { coordinates, sides, corners, .. } = read(bytes, length)?;
    let mut by_number = [(0, 0); MOST + 1];
    let mut named = vec![0; coordinates.len() / 3];
    for &vertex in &corners {
        named[usize::from(vertex)] += 1;
    }
    for count in named {
        by_number[count].0 += 1;
    }
    for &side_count in &sides {
        by_number[usize::from(side_count)].1 += 1;
    }
    Ok(Counts { vertices: coordinates.len() / 3, faces: sides.len(), corners: corners.len(), by_number })
}

impl std::fmt::Display for Counts {
    /// The lines of `inspect`.
    fn fmt(&self, out: &mut std::fmt::Formatter) -> std::fmt::Result {
        writeln!(out, "mesh {} {} {}", self.vertices, self.faces, self.corners)?;
        for (number, &(vertices, faces)) in self.by_number.iter().enumerate() {
            if (vertices, faces) != (0, 0) {
                writeln!(out, "{number} {vertices} {faces}")?;
            }
        }
        Ok(())
    }
}

/// The line that both programs print of a refused file.
fn refused(refusal: Refusal) -> String {
    format!("refused {} {}\n", refusal.number, refusal.place)
}

/// What `inspect` prints of a file.
pub fn inspect(bytes: &[u8]) -> String {
    summary(bytes, bytes.len() as u64).map_or_else(refused, |counts| counts.to_string())
}

/// What `patches` prints of a file: for each corner a line with its number and a line for each of its control points.
pub fn patches(bytes: &[u8]) -> String {
    let held = match read(bytes, bytes.len() as u64) {
        Ok(held) => held,
        Err(refusal) => return refused(refusal),
    };
    let lists = held.lists();
    let count = held.corners.len();
    let mut output = vec![0; NUMBERS_PER_CORNER * count];
    let built = links_of(lists).and_then(|links| build(lists, &links, 0, count, &mut output));
    built.expect("a file without a fault has a mesh without a fault");
    let mut text = String::new();
    for (corner, numbers) in output.chunks_exact(NUMBERS_PER_CORNER).enumerate() {
        writeln!(text, "corner {corner}").expect("a string takes every line");
        for point in numbers.chunks_exact(3) {
            writeln!(text, "{} {} {}", point[0], point[1], point[2]).expect("a string takes every line");
        }
    }
    text
}

/// What `squares` prints of a file.
pub fn squares(bytes: &[u8]) -> String {
    line(read(bytes, bytes.len() as u64).and_then(|held| irregular(held.lists())))
}

/// The file of the lists in a version, whatever they hold; counts are cut to 16 bits. Only version 2 has the sharpness.
pub fn encode(lists: Lists, version: usize) -> Vec<u8> {
    let mut bytes = b"DMS".to_vec();
    let counts = [version, lists.coordinates.len() / 3, lists.sides.len(), lists.corners.len()];
    bytes.extend(counts.into_iter().flat_map(|count| (count as u16).to_le_bytes()));
    bytes.extend(lists.coordinates.iter().flat_map(|c| c.to_le_bytes()));
    bytes.extend(lists.sides);
    bytes.extend(lists.corners.iter().flat_map(|v| v.to_le_bytes()));
    if version == 2 {
        bytes.extend(lists.sharpness);
    }
    bytes
}
