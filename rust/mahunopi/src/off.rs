//! Reading plain-text OFF models.

use crate::{raw, refusal::answer, Lengths, Mesh, Refusal, MAX_CORNERS, MAX_FACES, MAX_VERTICES};

/// Reads an OFF text into the beginnings of four lent lists, which have at least 3 · [`MAX_VERTICES`], [`MAX_FACES`],
/// [`MAX_CORNERS`] and 2 · [`MAX_CORNERS`] entries; the sharpness is 8 and 8 throughout. Faults 24 to 26, then 4 to 13.
pub fn off_into(
    text: &[u8],
    coordinates: &mut [i32],
    sides: &mut [u8],
    corners: &mut [u16],
    sharpness: &mut [u8],
) -> Result<Lengths, Refusal> {
    let mut lengths = [0; 4];
    let [coordinate_count, side_count, corner_count, sharpness_count] = &mut lengths;
    let mut place = 0;
    // SAFETY: each pointer goes with the length of its own slice, and the lent slices and numbers overlap nothing
    let number = unsafe {
        raw::mahunopi_off(
            text.as_ptr(),
            text.len(),
            coordinates.as_mut_ptr(),
            coordinates.len(),
            sides.as_mut_ptr(),
            sides.len(),
            corners.as_mut_ptr(),
            corners.len(),
            sharpness.as_mut_ptr(),
            sharpness.len(),
            coordinate_count,
            side_count,
            corner_count,
            sharpness_count,
            &mut place,
        )
    };
    answer(number, place)?;
    let [coordinates, sides, corners, sharpness] = lengths.map(|length| length as usize);
    Ok(Lengths { coordinates, sides, corners, sharpness })
}

/// The mesh of an OFF text, with sharpness 8 and 8 throughout: faults 24 to 26, then 4 to 13.
///
/// ```
/// use mahunopi::{off, Fault};
///
/// let mesh = off(b"OFF # a tetrahedron\n4 4 6\n0 0 0  9 0 0  0 9 0  0 0 9\n3 0 2 1  3 0 1 3  3 1 2 3  3 0 3 2")?;
/// assert_eq!((&mesh.coordinates[3..6], &mesh.corners[..3]), (&[9, 0, 0][..], &[0, 2, 1][..]));
/// // word 5 is no whole number
/// let refusal = off(b"OFF 1 0 0 7 1.5 0").unwrap_err();
/// assert_eq!((refusal.fault, refusal.place), (Fault::BadWord, 5));
/// # Ok::<(), mahunopi::Refusal>(())
/// ```
pub fn off(text: &[u8]) -> Result<Mesh, Refusal> {
    let mut mesh = Mesh::new(vec![0; 3 * MAX_VERTICES], vec![0; MAX_FACES], vec![0; MAX_CORNERS]);
    let lengths = off_into(text, &mut mesh.coordinates, &mut mesh.sides, &mut mesh.corners, &mut mesh.sharpness)?;
    mesh.coordinates.truncate(lengths.coordinates);
    mesh.sides.truncate(lengths.sides);
    mesh.corners.truncate(lengths.corners);
    mesh.sharpness.truncate(lengths.sharpness);
    Ok(mesh)
}
