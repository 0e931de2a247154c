//! Control points in floats: one, or all of a list of quad-nets.

use crate::{raw, refusal::answer, Refusal};

/// A control point's difference from its quad-net's b00, in ticks, each float a whole number and every zero plus zero.
#[derive(Clone, Copy, Debug, PartialEq)]
pub enum FloatPoint {
    /// All three differences lie within ±2^24: x, y, z.
    Near([f32; 3]),
    /// The first floats of the three pairs, multiples of 4,096, and the second ones, 0 to 4,095; a pair's sum is the
    /// difference.
    Far([f32; 3], [f32; 3]),
}

/// The difference of point 0 to 40 (b row by row, then a) of a quad-net's 123 numbers from its b00: faults 18 to 20.
///
/// ```
/// use mahunopi::{floats, Fault, FloatPoint};
///
/// let mut numbers = [0; 123];
/// numbers[3..6].copy_from_slice(&[7, -1, 0]); // b01
/// assert_eq!(floats(&numbers, 1)?, FloatPoint::Near([7.0, -1.0, 0.0]));
/// numbers[3] = 20_000_000;
/// assert_eq!(floats(&numbers, 1)?, FloatPoint::Far([19_996_672.0, -4_096.0, 0.0], [3_328.0, 4_095.0, 0.0]));
/// assert_eq!(floats(&numbers, 41).unwrap_err().fault, Fault::NoSuchPoint);
/// # Ok::<(), mahunopi::Refusal>(())
/// ```
pub fn floats(numbers: &[i32], point: usize) -> Result<FloatPoint, Refusal> {
    let mut floats = [0.0; 6];
    let mut pairs = 0;
    let mut place = 0;
    // SAFETY: the pointer goes with its slice's length, `floats` has six entries, and what is written to overlaps nothing
    let number =
        unsafe { raw::mahunopi_floats(numbers.as_ptr(), numbers.len(), point, &mut floats, &mut pairs, &mut place) };
    answer(number, place)?;
    let [x, y, z, u, v, w] = floats;
    Ok(match pairs {
        0 => FloatPoint::Near([x, y, z]),
        _ => FloatPoint::Far([x, y, z], [u, v, w]),
    })
}

/// Writes the floats of all points of a list of quad-nets, 123 numbers for each, to the beginning of the lent list: six for
/// each point, in order, x, y, z and three zeros for a near point, the first floats and the second ones for a far one; so a
/// point's two threes always add up to its difference. Faults 18, here of the whole list (place: its length), 19 (place: the
/// position in the whole list), then [`Fault::LentTooShort`](crate::Fault::LentTooShort).
pub fn floats_all_into(numbers: &[i32], floats: &mut [f32]) -> Result<(), Refusal> {
    let mut place = 0;
    // SAFETY: each pointer goes with the length of its own slice, and the lent slice overlaps nothing
    let number = unsafe {
        raw::mahunopi_floats_all(numbers.as_ptr(), numbers.len(), floats.as_mut_ptr(), floats.len(), &mut place)
    };
    answer(number, place)
}

/// The floats of all points of a list of quad-nets, as [`floats_all_into`] writes them: faults 18 and 19.
///
/// ```
/// use mahunopi::{floats_all, Fault};
///
/// let mut numbers = [0; 2 * 123]; // two quad-nets
/// numbers[3..6].copy_from_slice(&[7, -1, 0]); // b01 of the first
/// numbers[123 + 3] = 20_000_000; // b01 of the second
/// let floats = floats_all(&numbers)?;
/// assert_eq!(floats[6..12], [7.0, -1.0, 0.0, 0.0, 0.0, 0.0]);
/// assert_eq!(floats[246 + 6..246 + 12], [19_996_672.0, 0.0, 0.0, 3_328.0, 0.0, 0.0]);
/// assert_eq!(floats_all(&numbers[..200]).unwrap_err().fault, Fault::BadNetLength);
/// # Ok::<(), mahunopi::Refusal>(())
/// ```
pub fn floats_all(numbers: &[i32]) -> Result<Vec<f32>, Refusal> {
    let mut floats = vec![0.0; 2 * numbers.len()];
    floats_all_into(numbers, &mut floats)?;
    Ok(floats)
}
