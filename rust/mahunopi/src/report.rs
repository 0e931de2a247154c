//! The yearly border report: one page over a run of mesh files.

use std::fmt;

use crate::{raw, refusal::answer, Fault, Refusal};

/// The most meshes that a page counts.
pub const MAX_PAGE_MESHES: u64 = 4_096;
/// The numbers on a page.
pub const PAGE_NUMBERS: usize = 21;
/// The numbers of refusals that a page counts by lines without a gap; 28 has a line of its own.
const COUNTED: usize = 13;
/// What the misses are whole numbers over.
const ONE: u64 = 1 << 30;

/// What a run of mesh files showed. A run begins with `Page::default()`, which is all zero, and [`offer`](Page::offer)s
/// its files one after the other. The order of the files does not matter, and the pages of the parts of a run
/// [`merge`](Page::merge) to that of the whole, so that a year's files can be divided among threads and machines:
/// [`numbers`](Page::numbers) and [`from_numbers`](Page::from_numbers) carry a page from one to the other.
///
/// ```
/// use mahunopi::{Fault, Page};
///
/// let mut page = Page::default();
/// for name in ["cube", "torus", "flat"] {
///     page.offer(&std::fs::read(format!("../../meshes/{name}.dms"))?)?;
/// }
/// assert_eq!((page.meshes, page.corners, page.borders), (3, 24 + 384, 2 * (24 + 384)));
/// assert_eq!(page.refused_by(Fault::BadCornersOfVertex), Some(1)); // flat
/// assert!(page.largest_ticks().iter().all(|&miss| miss <= 13.0));
/// # Ok::<(), Box<dyn std::error::Error>>(())
/// ```
#[derive(Clone, Copy, Debug, Default, PartialEq, Eq)]
#[non_exhaustive]
pub struct Page {
    /// Meshes offered, refused ones too.
    pub meshes: u64,
    /// Corners of the accepted meshes, all of which were built.
    pub corners: u64,
    /// Borders of the accepted meshes, each once: two for each corner.
    pub borders: u64,
    /// Meshes refused by 1, by 2 and so on to 13.
    pub refused: [u64; COUNTED],
    /// Meshes refused by 28.
    pub refused_sharpness: u64,
    /// For each of the four conditions across a border the largest miss in any coordinate, its sign dropped, as a whole
    /// number over 2^30; 0 where no border was met.
    pub largest_misses: [u64; 4],
}

impl Page {
    /// The page of these numbers: meshes, corners, borders, refusals by 1 to 13, by 28, and the four largest misses.
    pub fn from_numbers(numbers: [u64; PAGE_NUMBERS]) -> Page {
        Page {
            meshes: numbers[0],
            corners: numbers[1],
            borders: numbers[2],
            refused: std::array::from_fn(|line| numbers[3 + line]),
            refused_sharpness: numbers[16],
            largest_misses: std::array::from_fn(|condition| numbers[17 + condition]),
        }
    }

    /// The numbers on the page, in the order that [`from_numbers`](Page::from_numbers) takes them in.
    pub fn numbers(&self) -> [u64; PAGE_NUMBERS] {
        let mut numbers = [0; PAGE_NUMBERS];
        numbers[..3].copy_from_slice(&[self.meshes, self.corners, self.borders]);
        numbers[3..16].copy_from_slice(&self.refused);
        numbers[16] = self.refused_sharpness;
        numbers[17..].copy_from_slice(&self.largest_misses);
        numbers
    }

    /// How many meshes were refused by a fault; none where no file is refused by it.
    pub fn refused_by(&self, fault: Fault) -> Option<u64> {
        match fault.number() as usize {
            number @ 1..=COUNTED => Some(self.refused[number - 1]),
            _ if fault == Fault::BadSharpness => Some(self.refused_sharpness),
            _ => None,
        }
    }

    /// The largest misses in ticks, of which 13 are the limit.
    pub fn largest_ticks(&self) -> [f64; 4] {
        self.largest_misses.map(|miss| miss as f64 / ONE as f64)
    }

    /// Makes the page the next one, with a .dms file more. A file that is refused is counted under its number, and the
    /// call is not refused for it. Faults 37 and 38, after which the page is as it was.
    pub fn offer(&mut self, bytes: &[u8]) -> Result<(), Refusal> {
        self.offer_counted(bytes, bytes.len() as u64)
    }

    /// The same of a file of `length` bytes, of which `bytes` holds the first ones. Of a file that is longer than that of
    /// any mesh the bytes beyond need only be counted.
    pub fn offer_counted(&mut self, bytes: &[u8], length: u64) -> Result<(), Refusal> {
        let mut numbers = self.numbers();
        let mut place = 0;
        // SAFETY: the pointer goes with the length of its slice, and the page and the place overlap nothing
        let number = unsafe { raw::mahunopi_report(bytes.as_ptr(), bytes.len(), length, &mut numbers, &mut place) };
        answer(number, place)?;
        *self = Page::from_numbers(numbers);
        Ok(())
    }

    /// Makes the page that of both runs: sums, and the larger of each two misses. Fault 37, where the two count more than
    /// 4,096 meshes, and 38; the page is then as it was.
    ///
    /// ```
    /// use mahunopi::Page;
    ///
    /// let files = ["cube", "prism", "torus", "flat"].map(|name| std::fs::read(format!("../../meshes/{name}.dms")));
    /// let mut whole = Page::default();
    /// let mut parts = [Page::default(); 2];
    /// for (number, file) in files.into_iter().enumerate() {
    ///     let bytes = file?;
    ///     whole.offer(&bytes)?;
    ///     parts[number % 2].offer(&bytes)?;
    /// }
    /// let [mut page, other] = parts;
    /// page.merge(&other)?;
    /// assert_eq!(page, whole);
    /// # Ok::<(), Box<dyn std::error::Error>>(())
    /// ```
    pub fn merge(&mut self, other: &Page) -> Result<(), Refusal> {
        let mut numbers = self.numbers();
        let mut place = 0;
        // SAFETY: both pages have their numbers, and the page and the place overlap nothing
        let number = unsafe { raw::mahunopi_merge(&other.numbers(), &mut numbers, &mut place) };
        answer(number, place)?;
        *self = Page::from_numbers(numbers);
        Ok(())
    }
}

/// The page in words, a line for each number, the misses in ticks to the nearest thousandth: as the program `report`
/// prints it.
impl fmt::Display for Page {
    fn fmt(&self, out: &mut fmt::Formatter<'_>) -> fmt::Result {
        writeln!(out, "meshes offered: {}", self.meshes)?;
        writeln!(out, "corners built: {}", self.corners)?;
        writeln!(out, "borders met: {}", self.borders)?;
        for (line, refused) in self.refused.iter().enumerate() {
            writeln!(out, "refused by {}: {refused}", line + 1)?;
        }
        writeln!(out, "refused by 28: {}", self.refused_sharpness)?;
        for (condition, &miss) in self.largest_misses.iter().enumerate() {
            let thousandths = (1_000 * u128::from(miss) + u128::from(ONE / 2)) / u128::from(ONE);
            let (ticks, rest) = (thousandths / 1_000, thousandths % 1_000);
            writeln!(out, "largest miss of condition {}: {ticks}.{rest:03} of 13 ticks", condition + 1)?;
        }
        Ok(())
    }
}
