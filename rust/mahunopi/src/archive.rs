//! Coordinates rearranged for the archive, where slowly varying bytes are stored better: the differences from the same
//! axis of the vertex before, all lowest bytes first, then all second, all third and all highest ones; and the way back.

use crate::{raw, refusal::answer, Refusal};

/// Fills the lent bytes, four for each number: faults 30 and 31.
pub fn archive_into(numbers: &[i32], bytes: &mut [u8]) -> Result<(), Refusal> {
    let mut place = 0;
    // SAFETY: each pointer goes with the length of its own slice, and the lent slices overlap nothing
    let number =
        unsafe { raw::mahunopi_archive(numbers.as_ptr(), numbers.len(), bytes.as_mut_ptr(), bytes.len(), &mut place) };
    answer(number, place)
}

/// The bytes of a coordinate list, which may be far longer than that of a mesh: fault 30.
///
/// ```
/// use mahunopi::{archive, restore, Fault};
///
/// let bytes = archive(&[5, 6, 7, 5, 7, 6])?;
/// assert_eq!(bytes[..6], [5, 6, 7, 0, 1, 255]); // the lowest bytes: 5, 6, 7, then the differences 0, 1, -1
/// assert_eq!(restore(&bytes)?, [5, 6, 7, 5, 7, 6]);
/// let refusal = archive(&[5, 6, 7, 5]).unwrap_err();
/// assert_eq!((refusal.fault, refusal.place), (Fault::BadNumberCount, 4));
/// # Ok::<(), mahunopi::Refusal>(())
/// ```
pub fn archive(numbers: &[i32]) -> Result<Vec<u8>, Refusal> {
    let mut bytes = vec![0; 4 * numbers.len()];
    archive_into(numbers, &mut bytes)?;
    Ok(bytes)
}

/// Fills the lent numbers, one for each four bytes: faults 30 and 31.
pub fn restore_into(bytes: &[u8], numbers: &mut [i32]) -> Result<(), Refusal> {
    let mut place = 0;
    // SAFETY: each pointer goes with the length of its own slice, and the lent slices overlap nothing
    let number =
        unsafe { raw::mahunopi_restore(bytes.as_ptr(), bytes.len(), numbers.as_mut_ptr(), numbers.len(), &mut place) };
    answer(number, place)
}

/// The coordinate list of which [`archive`] made these bytes: faults 30 and 31, of a list with a number for each four
/// bytes.
pub fn restore(bytes: &[u8]) -> Result<Vec<i32>, Refusal> {
    let mut numbers = vec![0; bytes.len() / 4];
    restore_into(bytes, &mut numbers)?;
    Ok(numbers)
}
