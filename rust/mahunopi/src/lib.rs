//! Smooth patches over a closed mesh, in whole numbers: the proved library, called from safe Rust.
//!
//! A [`Mesh`] is four lists; [`MeshRef`] borrows them.
//!
//! - [`survey`] counts what a .dms file holds. [`decode`] reads its mesh, and [`off`] reads the mesh of an OFF text.
//! - [`turn`] turns faces that are drawn the wrong way round. [`irregular`] says whether a mesh is all squares.
//! - [`link`] makes the link table of a mesh.
//! - [`build`] makes the control points of a range of corners: 123 numbers for each corner, in ticks of 1/256 of a grid
//!   step, five rows of five b points and then four rows of four a points. [`build_all`] builds all corners on several
//!   threads.
//! - [`preview`] builds with one vertex moved. [`touched`] names the corners that a vertex can change.
//! - [`floats`] gives one control point as floats, and [`floats_all`] a list of them.
//! - [`sample`] gives a point of the surface, [`sample_triangle`] all points of a triangle, and [`tangents_at`] the two
//!   tangents at a point.
//! - [`triangles`] makes the whole surface one closed mesh of triangles, and [`triangles_all`] does so on several threads.
//!   [`count_triangles`] says how large that mesh is, and [`tangents`] gives the tangents at its points.
//! - A [`Page`] reports on the borders of a run of files.
//! - [`nest`] lists a table of nested grids.
//! - [`archive`] rearranges a coordinate list for the archive, and [`restore`] undoes that.
//!
//! An input that is turned down gives a [`Refusal`]. The functions ending in `_into` fill what the caller lends them,
//! which keeps its contents after a refusal.
//!
//! Calls share no state and may run at the same time on any threads. Each needs up to [`CALL_STACK`] bytes of its
//! thread's stack.
//!
//! ```
//! use mahunopi::{build, decode, link, NUMBERS_PER_CORNER};
//!
//! let cube = decode(&std::fs::read("../../meshes/cube.dms")?)?;
//! let links = link(&cube)?;
//! let points = build(&cube, &links, 0, 24)?;
//! assert_eq!(points.len(), 24 * NUMBERS_PER_CORNER);
//! assert_eq!(points[..6], [512, 512, 512, 544, 448, 544]); // b00 and b01 of corner 0
//! # Ok::<(), Box<dyn std::error::Error>>(())
//! ```

#![warn(missing_docs)]

mod archive;
mod floats;
mod irregular;
mod mesh;
mod nesting;
mod off;
mod preview;
pub mod raw;
mod refusal;
mod report;
mod sampling;
mod triangles;
mod turning;

use std::num::NonZeroUsize;
use std::thread;

pub use archive::{archive, archive_into, restore, restore_into};
pub use floats::{floats, floats_all, floats_all_into, FloatPoint};
pub use irregular::{irregular, Irregular};
pub use mesh::{Counts, Lengths, Mesh, MeshRef};
pub use nesting::{nest, nest_into, MAX_BODIES, SUN};
pub use off::{off, off_into};
pub use preview::{preview, preview_into, ranges, touched, touched_into};
use refusal::answer;
pub use refusal::{Fault, Refusal};
pub use report::{Page, MAX_PAGE_MESHES, PAGE_NUMBERS};
pub use sampling::{sample, sample_count, sample_triangle, sample_triangle_into, tangents_at, MAX_PARTS};
pub use triangles::{
    count_triangles, tangents, tangents_into, triangles, triangles_all, triangles_into, TriangleLengths, Triangles,
};
pub use turning::{turn, turn_in_place, turn_into, Turned};

/// The version of the header that this wrapper is for, `MAHUNOPI_VERSION` there; the package's major version.
pub const VERSION: u32 = 5;
/// The most vertices of a mesh.
pub const MAX_VERTICES: usize = 2_048;
/// The most faces of a mesh.
pub const MAX_FACES: usize = 4_096;
/// The most corners of a mesh.
pub const MAX_CORNERS: usize = 8_192;
/// The most sides of a face, and corners of a vertex; the fewest are three.
pub const MAX_SIDES: usize = 16;
/// The largest sharpness number, in sixteenths.
pub const MAX_SHARPNESS: u8 = 16;
/// The sharpness number that a corner has where nothing else is said.
pub const PLAIN_SHARPNESS: u8 = 8;
/// The numbers that building makes for a corner: 41 control points of x, y, z.
pub const NUMBERS_PER_CORNER: usize = 123;
/// The bytes of stack that a call may take.
pub const CALL_STACK: usize = 320 * 1024;
/// The fewest corners that [`build_all`] gives a thread: a thread has to be started, and every range repeats the checks
/// over the whole mesh.
const LEAST_RANGE: usize = 2_048;

/// Fills the lent link table, which has an entry for each corner: faults 4 to 14, 27 and 28.
pub fn link_into<'a>(mesh: impl Into<MeshRef<'a>>, links: &mut [u16]) -> Result<(), Refusal> {
    let mesh = mesh.into();
    let mut place = 0;
    // SAFETY: each pointer goes with the length of its own slice, and the lent slices overlap nothing
    let number = unsafe {
        raw::mahunopi_link(
            mesh.coordinates.as_ptr(),
            mesh.coordinates.len(),
            mesh.sides.as_ptr(),
            mesh.sides.len(),
            mesh.corners.as_ptr(),
            mesh.corners.len(),
            mesh.sharpness.as_ptr(),
            mesh.sharpness.len(),
            links.as_mut_ptr(),
            links.len(),
            &mut place,
        )
    };
    answer(number, place)
}

/// The link table of a mesh: faults 4 to 13, 27 and 28.
pub fn link<'a>(mesh: impl Into<MeshRef<'a>>) -> Result<Vec<u16>, Refusal> {
    let mesh = mesh.into();
    // a mesh of more corners is refused before its table is looked at
    let mut links = vec![0; mesh.corners.len().min(MAX_CORNERS)];
    link_into(mesh, &mut links)?;
    Ok(links)
}

/// Writes the control points of `count` corners from `first` on to the lent output, which has 123 numbers for each:
/// faults 4 to 17, 27 and 28.
pub fn build_into<'a>(
    mesh: impl Into<MeshRef<'a>>,
    links: &[u16],
    first: usize,
    count: usize,
    output: &mut [i32],
) -> Result<(), Refusal> {
    let mesh = mesh.into();
    let mut place = 0;
    // SAFETY: each pointer goes with the length of its own slice, and the lent slices overlap nothing
    let number = unsafe {
        raw::mahunopi_build(
            mesh.coordinates.as_ptr(),
            mesh.coordinates.len(),
            mesh.sides.as_ptr(),
            mesh.sides.len(),
            mesh.corners.as_ptr(),
            mesh.corners.len(),
            mesh.sharpness.as_ptr(),
            mesh.sharpness.len(),
            links.as_ptr(),
            links.len(),
            first,
            count,
            output.as_mut_ptr(),
            output.len(),
            &mut place,
        )
    };
    answer(number, place)
}

/// The control points of `count` corners from `first` on: faults 4 to 16, 27 and 28.
///
/// ```
/// # use mahunopi::{build, Fault, Mesh};
/// // an empty mesh is refused, and so is every range of it
/// let refusal = build(&Mesh::default(), &[], 0, usize::MAX).unwrap_err();
/// assert_eq!((refusal.fault, refusal.place), (Fault::BadCounts, 0));
/// ```
pub fn build<'a>(mesh: impl Into<MeshRef<'a>>, links: &[u16], first: usize, count: usize) -> Result<Vec<i32>, Refusal> {
    // a larger count is refused before the output is looked at
    let mut output = vec![0; NUMBERS_PER_CORNER * count.min(MAX_CORNERS)];
    build_into(mesh, links, first, count, &mut output)?;
    Ok(output)
}

/// The control points of all corners, built in ranges on at most `threads` threads, or on as many as the machine
/// offers where none is named: the same answer and the same numbers as [`build`] of all corners. Faults 4 to 15,
/// 27 and 28.
///
/// ```
/// use mahunopi::{build, build_all, decode, link};
///
/// let torus = decode(&std::fs::read("../../meshes/torus.dms")?)?;
/// let links = link(&torus)?;
/// assert_eq!(build_all(&torus, &links, None)?, build(&torus, &links, 0, 384)?);
/// # Ok::<(), Box<dyn std::error::Error>>(())
/// ```
pub fn build_all<'a>(
    mesh: impl Into<MeshRef<'a>>,
    links: &[u16],
    threads: Option<NonZeroUsize>,
) -> Result<Vec<i32>, Refusal> {
    let mesh = mesh.into();
    let corners = mesh.corners.len();
    let threads = threads.or_else(|| thread::available_parallelism().ok()).map_or(1, NonZeroUsize::get);
    let range = ((corners + threads - 1) / threads).max(LEAST_RANGE);
    // one range, or a mesh that is refused
    if corners <= range || corners > MAX_CORNERS {
        return build(mesh, links, 0, corners);
    }
    let mut output = vec![0; NUMBERS_PER_CORNER * corners];
    thread::scope(|scope| {
        let workers: Vec<_> = output
            .chunks_mut(NUMBERS_PER_CORNER * range)
            .enumerate()
            .map(|(number, part)| {
                let call = move || build_into(mesh, links, number * range, part.len() / NUMBERS_PER_CORNER, part);
                // twice what the call takes: the thread has frames of its own
                thread::Builder::new().stack_size(2 * CALL_STACK).spawn_scoped(scope, call).expect("a thread")
            })
            .collect();
        // what 4 to 15, 27 and 28 refuse is the same in every range
        workers.into_iter().try_for_each(|worker| worker.join().expect("a call does not panic"))
    })?;
    Ok(output)
}

/// Reads a .dms file into the beginnings of four lent lists: faults 1 to 13 and 28, then [`Fault::LentTooShort`]. The
/// file has `length` bytes, of which `bytes` holds the first ones.
pub fn decode_into(
    bytes: &[u8],
    length: u64,
    coordinates: &mut [i32],
    sides: &mut [u8],
    corners: &mut [u16],
    sharpness: &mut [u8],
) -> Result<Lengths, Refusal> {
    let mut lengths = [0; 4];
    let [coordinate_count, side_count, corner_count, sharpness_count] = &mut lengths;
    let mut place = 0;
    // SAFETY: each pointer goes with the length of its own slice, and the lent slices and numbers overlap nothing
    let number = unsafe {
        raw::mahunopi_decode(
            bytes.as_ptr(),
            bytes.len(),
            length,
            coordinates.as_mut_ptr(),
            coordinates.len(),
            sides.as_mut_ptr(),
            sides.len(),
            corners.as_mut_ptr(),
            corners.len(),
            sharpness.as_mut_ptr(),
            sharpness.len(),
            coordinate_count,
            side_count,
            corner_count,
            sharpness_count,
            &mut place,
        )
    };
    answer(number, place)?;
    let [coordinates, sides, corners, sharpness] = lengths.map(|length| length as usize);
    Ok(Lengths { coordinates, sides, corners, sharpness })
}

/// The mesh of a .dms file: faults 1 to 13 and 28. A file of version 1 has sharpness 8 and 8 throughout.
///
/// ```
/// # use mahunopi::{decode, Fault};
/// // a tetrahedron: mark, version, counts, coordinates, side counts, corners
/// let mut file = b"DMS\x01\x00\x04\x00\x04\x00\x0c\x00".to_vec();
/// file.extend([0i32; 12].iter().flat_map(|c| c.to_le_bytes()));
/// file.extend([3; 4]);
/// file.extend([0u16, 1, 2, 0, 2, 3, 0, 3, 1, 1, 3, 2].iter().flat_map(|v| v.to_le_bytes()));
/// let mesh = decode(&file)?;
/// assert_eq!(mesh.sides, [3; 4]);
/// assert_eq!(mesh.sharpness, [8; 24]);
/// assert_eq!(decode(&file[1..]).unwrap_err().fault, Fault::BadMark);
/// // the same in version 2, with u = 16 and v = 0 at every corner
/// file[3] = 2;
/// file.extend([16, 0].repeat(12));
/// assert_eq!(decode(&file)?.sharpness, [16, 0].repeat(12));
/// # Ok::<(), mahunopi::Refusal>(())
/// ```
pub fn decode(bytes: &[u8]) -> Result<Mesh, Refusal> {
    let mut mesh = Mesh::new(vec![0; 3 * MAX_VERTICES], vec![0; MAX_FACES], vec![0; MAX_CORNERS]);
    let Mesh { coordinates, sides, corners, sharpness } = &mut mesh;
    let lengths = decode_into(bytes, bytes.len() as u64, coordinates, sides, corners, sharpness)?;
    mesh.coordinates.truncate(lengths.coordinates);
    mesh.sides.truncate(lengths.sides);
    mesh.corners.truncate(lengths.corners);
    mesh.sharpness.truncate(lengths.sharpness);
    Ok(mesh)
}

/// The counts of a .dms file of `length` bytes, of which `bytes` holds the first ones: faults 1 to 13 and 28. Of a file
/// that is longer than that of any mesh the bytes beyond need only be counted.
pub fn survey_counted(bytes: &[u8], length: u64) -> Result<Counts, Refusal> {
    let mut totals = [0; 3];
    let [vertices, faces, corners] = &mut totals;
    let mut vertices_with = [0; MAX_SIDES + 1];
    let mut faces_with = [0; MAX_SIDES + 1];
    let mut place = 0;
    // SAFETY: each pointer goes with the length of its own slice, and the lent slices and numbers overlap nothing
    let number = unsafe {
        raw::mahunopi_survey(
            bytes.as_ptr(),
            bytes.len(),
            length,
            vertices,
            faces,
            corners,
            vertices_with.as_mut_ptr(),
            vertices_with.len(),
            faces_with.as_mut_ptr(),
            faces_with.len(),
            &mut place,
        )
    };
    answer(number, place)?;
    let [vertices, faces, corners] = totals.map(|count| count as usize);
    Ok(Counts { vertices, faces, corners, vertices_with, faces_with })
}

/// The counts of a .dms file: faults 1 to 13 and 28.
///
/// ```
/// use mahunopi::survey;
///
/// let counts = survey(&std::fs::read("../../meshes/cube.dms")?)?;
/// assert_eq!((counts.vertices, counts.faces, counts.corners), (8, 6, 24));
/// assert_eq!((counts.vertices_with(3), counts.faces_with(4)), (8, 6));
/// assert_eq!(counts.to_string(), "mesh 8 6 24\n3 8 0\n4 0 6\n");
/// # Ok::<(), Box<dyn std::error::Error>>(())
/// ```
pub fn survey(bytes: &[u8]) -> Result<Counts, Refusal> {
    survey_counted(bytes, bytes.len() as u64)
}
