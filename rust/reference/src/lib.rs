//! An independent implementation of document 01, of L1 and L4 to L14, in plain Rust: the file, the check of a mesh,
//! linking, building, the four conditions across a side, a control point in floats, the listing of nested grids, OFF
//! texts, the search for an irregular face or vertex, the preview of a moved vertex, the construction without rounding,
//! coordinates rearranged for the archive, samples of a patch, turning of faces, the border report; and of the surface as
//! closed triangles. It is written from the papers alone and shares nothing with the proved library, so that the two can
//! be compared; nobody has proved it.

mod archive;
mod check;
pub mod conditions;
mod cosines;
pub mod exact;
mod file;
mod floats;
mod nesting;
mod off;
mod preview;
mod report;
mod sampling;
mod squares;
mod surface;
mod triangles;
mod turning;
mod wide;

pub use archive::{archive, archive_stream, restore, restore_stream, MOST_BYTES};
pub use check::{check, link, links_of};
pub use cosines::cosine;
pub use file::{decode, encode, inspect, patches, squares, summary, Counts, Lengths, LENT_TOO_SHORT};
pub use floats::{floats, floats_all, FloatPoint};
pub use nesting::{nest, nest_lines};
pub use off::{off, off2dms, off2dms_as_drawn, OffLists};
pub use preview::{preview, touched};
pub use report::{merge, report, Page, COUNTED, MOST_MESHES, MOST_ON_PAGE};
pub use sampling::{sample, sample_tangents, sample_triangle, small_triangles};
pub use squares::{irregular, Irregular};
pub use surface::{build, nets, round, Net, Point, NUMBERS_PER_CORNER};
pub use triangles::{count_triangles, tangents, triangles, MOST_PARTS};
pub use turning::{turn, turn_file};

/// The most vertices, faces and corners that a mesh may have.
pub const MAX_VERTICES: usize = 2_048;
pub const MAX_FACES: usize = 4_096;
pub const MAX_CORNERS: usize = 8_192;
/// The fewest and the most sides of a face, and corners of a vertex.
pub const FEWEST: usize = 3;
pub const MOST: usize = 16;
/// The largest coordinate, in grid steps; the smallest is its negative.
pub const LARGEST_COORDINATE: i32 = 65_536;
/// The largest sharpness number, in sixteenths, and what files without sharpness have throughout.
pub const SHARPEST: u8 = 16;
pub const PLAIN: u8 = 8;

/// The four lists of a mesh: coordinates, side counts, vertex numbers of the corners, and their sharpness: u and v of
/// corner 0, then of corner 1, and so on.
#[derive(Clone, Copy, Debug)]
pub struct Lists<'a> {
    pub coordinates: &'a [i32],
    pub sides: &'a [u8],
    pub corners: &'a [u16],
    pub sharpness: &'a [u8],
}

/// Why an input is turned down: the number in 01's list, and the place.
#[derive(Clone, Copy, Debug, PartialEq, Eq)]
pub struct Refusal {
    pub number: u32,
    pub place: u64,
}

/// A refusal as an error.
fn refuse<T>(number: u32, place: usize) -> Result<T, Refusal> {
    Err(Refusal { number, place: place as u64 })
}
