//! L14, the yearly border report: a page over a run of mesh files, the next page of a page and a file, and two pages as
//! one. Every mesh is built whole and its borders are measured, each from one of its sides.

use std::fmt;

use crate::conditions::{measure, Borders};
use crate::cosines::ONE;
use crate::file::read;
use crate::surface::nets_and_output;
use crate::{refuse, Refusal};

/// The most meshes of a run, and the largest number on a page that takes a further file.
pub const MOST_MESHES: u64 = 4_096;
pub const MOST_ON_PAGE: u64 = 1 << 40;
/// The numbers of refusals that a page counts, in its order.
pub const COUNTED: [u32; 14] = [1, 2, 3, 4, 5, 6, 7, 8, 9, 10, 11, 12, 13, 28];

/// What is known of a run of files. It displays as the lines that the program `report` prints.
#[derive(Clone, Copy, Debug, Default, PartialEq, Eq)]
pub struct Page {
    /// Meshes offered, refused ones too.
    pub meshes: u64,
    /// Corners built, and borders met, of the accepted ones.
    pub corners: u64,
    pub borders: u64,
    /// Meshes refused, by the numbers in `COUNTED`.
    pub refused: [u64; 14],
    /// The largest miss of each condition, over 2^30.
    pub largest: [u64; 4],
}

impl Page {
    /// The 21 numbers in the order of the C face.
    pub fn numbers(&self) -> [u64; 21] {
        let mut numbers = [0; 21];
        numbers[..3].copy_from_slice(&[self.meshes, self.corners, self.borders]);
        numbers[3..17].copy_from_slice(&self.refused);
        numbers[17..].copy_from_slice(&self.largest);
        numbers
    }

    pub fn of_numbers(numbers: [u64; 21]) -> Page {
        Page {
            meshes: numbers[0],
            corners: numbers[1],
            borders: numbers[2],
            refused: std::array::from_fn(|line| numbers[3 + line]),
            largest: std::array::from_fn(|condition| numbers[17 + condition]),
        }
    }

    fn is_beyond(&self) -> bool {
        self.numbers().iter().any(|&number| number > MOST_ON_PAGE)
    }
}

impl fmt::Display for Page {
    fn fmt(&self, out: &mut fmt::Formatter) -> fmt::Result {
        writeln!(out, "meshes offered: {}", self.meshes)?;
        writeln!(out, "corners built: {}", self.corners)?;
        writeln!(out, "borders met: {}", self.borders)?;
        for (number, refused) in COUNTED.iter().zip(self.refused) {
            writeln!(out, "refused by {number}: {refused}")?;
        }
        for (condition, &miss) in self.largest.iter().enumerate() {
            // to the nearest thousandth, halves upwards
            let thousandths = (1_000 * u128::from(miss) + ONE as u128 / 2) / ONE as u128;
            let (ticks, rest) = (thousandths / 1_000, thousandths % 1_000);
            writeln!(out, "largest miss of condition {}: {ticks}.{rest:03} of 13 ticks", condition + 1)?;
        }
        Ok(())
    }
}

/// The corners of a file's mesh and what its borders show.
fn measured(bytes: &[u8], length: u64) -> Result<(usize, Borders), Refusal> {
    let held = read(bytes, length)?;
    let (nets, output) = nets_and_output(held.lists())?;
    Ok((held.corners.len(), measure(&nets, &output)))
}

/// The next page of a page and a file of `length` bytes, of which `bytes` holds the first ones. A refused file is
/// counted: it is no refusal of the call.
pub fn report(page: &Page, bytes: &[u8], length: u64) -> Result<Page, Refusal> {
    if page.meshes >= MOST_MESHES {
        return refuse(37, MOST_MESHES as usize);
    }
    if page.is_beyond() {
        return refuse(38, 0);
    }
    let mut next = Page { meshes: page.meshes + 1, ..*page };
    match measured(bytes, length) {
        Ok((corners, found)) => {
            next.corners += corners as u64;
            next.borders += found.met as u64;
            for (largest, miss) in next.largest.iter_mut().zip(found.largest) {
                *largest = miss.unsigned_abs().max(*largest);
            }
        }
        Err(refusal) => {
            let line = COUNTED.iter().position(|&number| number == refusal.number);
            next.refused[line.expect("no file is refused by another number")] += 1;
        }
    }
    Ok(next)
}

/// Two pages as one: sums, and the larger of each two misses.
pub fn merge(page: &Page, other: &Page) -> Result<Page, Refusal> {
    if u128::from(page.meshes) + u128::from(other.meshes) > u128::from(MOST_MESHES) {
        return refuse(37, MOST_MESHES as usize);
    }
    if page.is_beyond() || other.is_beyond() {
        return refuse(38, 0);
    }
    Ok(Page {
        meshes: page.meshes + other.meshes,
        corners: page.corners + other.corners,
        borders: page.borders + other.borders,
        refused: std::array::from_fn(|line| page.refused[line] + other.refused[line]),
        largest: std::array::from_fn(|condition| page.largest[condition].max(other.largest[condition])),
    })
}
