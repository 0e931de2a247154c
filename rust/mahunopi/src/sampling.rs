//! Samples of a patch: points of one of a quad-net's four triangles.

use crate::{raw, refusal::answer, Refusal};

/// The most parts that a triangle's side is cut into.
pub const MAX_PARTS: usize = 16;

/// How many samples a triangle in `parts` parts has: (N + 1)(N + 2) / 2.
pub const fn sample_count(parts: usize) -> usize {
    (parts + 1) * (parts + 2) / 2
}

/// The point at weights i/N, j/N, k/N of the triangle of a side, 0 to 3, of a quad-net's 123 numbers, in ticks: the
/// first weight belongs to the side's head, the second to its tail, the third to the quad-net's centre. Faults 18, 19,
/// 32 and 33.
///
/// ```
/// use mahunopi::{build, decode, link, sample, Fault};
///
/// let cube = decode(&std::fs::read("../../meshes/cube.dms")?)?;
/// let net = build(&cube, &link(&cube)?, 0, 1)?;
/// assert_eq!(sample(&net, 0, [4, 0, 0], 4)?, [512, 512, 512]); // the head, b00
/// assert_eq!(sample(&net, 0, [2, 2, 0], 4)?, sample(&net, 0, [1, 1, 0], 2)?);
/// assert_eq!(sample(&net, 0, [2, 2, 1], 4).unwrap_err().fault, Fault::BadWeights);
/// # Ok::<(), Box<dyn std::error::Error>>(())
/// ```
pub fn sample(numbers: &[i32], side: usize, weights: [usize; 3], parts: usize) -> Result<[i32; 3], Refusal> {
    let [i, j, k] = weights;
    let mut point = [0; 3];
    let mut place = 0;
    // SAFETY: the pointer goes with its slice's length, `point` has three entries, and what is written to overlaps nothing
    let number =
        unsafe { raw::mahunopi_sample(numbers.as_ptr(), numbers.len(), side, i, j, k, parts, &mut point, &mut place) };
    answer(number, place)?;
    Ok(point)
}

/// The two tangents at the same point: the derivatives of the patch towards the side's tail and towards the centre, in each of
/// which the head's weight falls as the other one rises. They are exact: in ticks, times N^3. Along a side that two quad-nets
/// have in common the first is the same from both. Faults 18, 19, 32 and 33.
///
/// ```
/// use mahunopi::{build, decode, link, tangents_at};
///
/// let cube = decode(&std::fs::read("../../meshes/cube.dms")?)?;
/// let net = build(&cube, &link(&cube)?, 0, 1)?;
/// let [along, inward] = tangents_at(&net, 0, [1, 0, 0], 1)?;
/// assert_eq!(along[0], 4 * i64::from(net[3] - net[0])); // from b00 to b01
/// assert_eq!(inward[0], 4 * i64::from(net[75] - net[0])); // from b00 to a00
/// # Ok::<(), Box<dyn std::error::Error>>(())
/// ```
pub fn tangents_at(numbers: &[i32], side: usize, weights: [usize; 3], parts: usize) -> Result<[[i64; 3]; 2], Refusal> {
    let [i, j, k] = weights;
    let mut tangents = [0; 6];
    let mut place = 0;
    // SAFETY: the pointer goes with its slice's length, `tangents` has six entries, and what is written to overlaps nothing
    let number = unsafe {
        raw::mahunopi_tangents_at(numbers.as_ptr(), numbers.len(), side, i, j, k, parts, &mut tangents, &mut place)
    };
    answer(number, place)?;
    let [x, y, z, u, v, w] = tangents;
    Ok([[x, y, z], [u, v, w]])
}

/// Writes all samples of a side's triangle to the beginning of the lent list, x, y, z of each: rows from the side
/// inwards, each from the head, so that the sample of weights i, j, k is number k(2N + 3 - k)/2 + j. Faults 18, 19, 32,
/// 33, then [`Fault::LentTooShort`](crate::Fault::LentTooShort).
pub fn sample_triangle_into(numbers: &[i32], side: usize, parts: usize, points: &mut [i32]) -> Result<(), Refusal> {
    let mut place = 0;
    // SAFETY: each pointer goes with the length of its own slice, and the lent slice overlaps nothing
    let number = unsafe {
        raw::mahunopi_sample_triangle(
            numbers.as_ptr(),
            numbers.len(),
            side,
            parts,
            points.as_mut_ptr(),
            points.len(),
            &mut place,
        )
    };
    answer(number, place)
}

/// All samples of a side's triangle, as [`sample_triangle_into`] writes them: faults 18, 19, 32 and 33.
///
/// ```
/// use mahunopi::{sample, sample_count, sample_triangle};
///
/// let net = [7; 123];
/// let points = sample_triangle(&net, 2, 5)?;
/// assert_eq!(points.len(), 3 * sample_count(5));
/// assert_eq!(points[3 * 8..][..3], sample(&net, 2, [2, 2, 1], 5)?); // row 1 begins at 6
/// # Ok::<(), mahunopi::Refusal>(())
/// ```
pub fn sample_triangle(numbers: &[i32], side: usize, parts: usize) -> Result<Vec<i32>, Refusal> {
    // more parts are refused before the list is looked at
    let mut points = vec![0; 3 * sample_count(parts.min(MAX_PARTS))];
    sample_triangle_into(numbers, side, parts, &mut points)?;
    Ok(points)
}
