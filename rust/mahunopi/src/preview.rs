//! Trying a vertex before moving it, and the corners that it can change.

use std::ops::Range;

use crate::{raw, refusal::answer, MeshRef, Refusal, MAX_CORNERS, NUMBERS_PER_CORNER};

/// Writes what [`build_into`](crate::build_into) would if `vertex` had the coordinates `to`: fault 29, then 4 to 17, 27
/// and 28 of the mesh with the vertex moved.
pub fn preview_into<'a>(
    mesh: impl Into<MeshRef<'a>>,
    links: &[u16],
    first: usize,
    count: usize,
    vertex: usize,
    to: [i32; 3],
    output: &mut [i32],
) -> Result<(), Refusal> {
    let mesh = mesh.into();
    let [x, y, z] = to;
    let mut place = 0;
    // SAFETY: each pointer goes with the length of its own slice, and the lent slices overlap nothing
    let number = unsafe {
        raw::mahunopi_preview(
            mesh.coordinates.as_ptr(),
            mesh.coordinates.len(),
            mesh.sides.as_ptr(),
            mesh.sides.len(),
            mesh.corners.as_ptr(),
            mesh.corners.len(),
            mesh.sharpness.as_ptr(),
            mesh.sharpness.len(),
            links.as_ptr(),
            links.len(),
            first,
            count,
            vertex,
            x,
            y,
            z,
            output.as_mut_ptr(),
            output.len(),
            &mut place,
        )
    };
    answer(number, place)
}

/// The control points of `count` corners from `first` on as they were if `vertex` had the coordinates `to`: fault 29,
/// then 4 to 16, 27 and 28. The mesh stays as it is.
///
/// ```
/// use mahunopi::{build, decode, link, preview};
///
/// let mut cube = decode(&std::fs::read("../../meshes/cube.dms")?)?;
/// let links = link(&cube)?;
/// let tried = preview(&cube, &links, 0, 24, 1, [5, -4, 3])?;
/// cube.coordinates[3..6].copy_from_slice(&[5, -4, 3]);
/// assert_eq!(tried, build(&cube, &links, 0, 24)?);
/// # Ok::<(), Box<dyn std::error::Error>>(())
/// ```
pub fn preview<'a>(
    mesh: impl Into<MeshRef<'a>>,
    links: &[u16],
    first: usize,
    count: usize,
    vertex: usize,
    to: [i32; 3],
) -> Result<Vec<i32>, Refusal> {
    // a larger count is refused before the output is looked at
    let mut output = vec![0; NUMBERS_PER_CORNER * count.min(MAX_CORNERS)];
    preview_into(mesh, links, first, count, vertex, to, &mut output)?;
    Ok(output)
}

/// Writes a mark for each corner, 1 where `vertex` can change its control points and else 0: faults 29, 4 to 13, 27
/// and 28, then [`Fault::LentTooShort`](crate::Fault::LentTooShort).
pub fn touched_into<'a>(mesh: impl Into<MeshRef<'a>>, vertex: usize, marks: &mut [u8]) -> Result<(), Refusal> {
    let mesh = mesh.into();
    let mut place = 0;
    // SAFETY: each pointer goes with the length of its own slice, and the lent slices overlap nothing
    let number = unsafe {
        raw::mahunopi_touched(
            mesh.coordinates.as_ptr(),
            mesh.coordinates.len(),
            mesh.sides.as_ptr(),
            mesh.sides.len(),
            mesh.corners.as_ptr(),
            mesh.corners.len(),
            mesh.sharpness.as_ptr(),
            mesh.sharpness.len(),
            vertex,
            marks.as_mut_ptr(),
            marks.len(),
            &mut place,
        )
    };
    answer(number, place)
}

/// The corners whose control points `vertex` can change, by rising number: faults 29, 4 to 13, 27 and 28. All others keep
/// theirs, wherever the vertex is moved to.
///
/// ```
/// use mahunopi::{decode, touched};
///
/// let torus = decode(&std::fs::read("../../meshes/torus.dms")?)?;
/// // four faces have the vertex, and nine vertices these faces
/// assert_eq!(touched(&torus, 0)?.len(), 36);
/// # Ok::<(), Box<dyn std::error::Error>>(())
/// ```
pub fn touched<'a>(mesh: impl Into<MeshRef<'a>>, vertex: usize) -> Result<Vec<usize>, Refusal> {
    let mesh = mesh.into();
    // a mesh of more corners is refused before the marks are looked at
    let mut marks = vec![0; mesh.corners.len().min(MAX_CORNERS)];
    touched_into(mesh, vertex, &mut marks)?;
    Ok((0..marks.len()).filter(|&corner| marks[corner] != 0).collect())
}

/// Rising corners as ranges, two of which are joined where at most `gap` corners lie between them. A call for a range
/// checks the whole mesh, which takes as long as building about a twelfth of its corners: with that for a gap a drag
/// takes few calls.
///
/// ```
/// assert_eq!(mahunopi::ranges(&[3, 4, 6, 20], 1), [3..7, 20..21]);
/// ```
pub fn ranges(corners: &[usize], gap: usize) -> Vec<Range<usize>> {
    let mut ranges: Vec<Range<usize>> = Vec::new();
    for &corner in corners {
        match ranges.last_mut() {
            Some(last) if corner.saturating_sub(last.end) <= gap => last.end = corner + 1,
            _ => ranges.push(corner..corner + 1),
        }
    }
    ranges
}
