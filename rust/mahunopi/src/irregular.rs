//! Whether a mesh is all squares.

use std::fmt;

use crate::{raw, refusal::answer, MeshRef, Refusal};

/// What is irregular in a mesh, and how many side counts the search read, those of the checks apart. It displays as the
/// line that the program `squares` prints, without its end.
#[derive(Clone, Copy, Debug, PartialEq, Eq)]
#[non_exhaustive]
pub enum Irregular {
    /// The lowest face that has not four sides. It was the last one read.
    Face {
        /// The face.
        face: usize,
        /// How many side counts were read: the face plus one.
        sides_read: usize,
    },
    /// All faces have four sides; the lowest vertex that has not four corners.
    Vertex {
        /// The vertex.
        vertex: usize,
        /// How many side counts were read: all.
        sides_read: usize,
    },
    /// All faces have four sides, and all vertices four corners.
    None {
        /// How many side counts were read: all.
        sides_read: usize,
    },
}

impl fmt::Display for Irregular {
    fn fmt(&self, out: &mut fmt::Formatter<'_>) -> fmt::Result {
        match self {
            Irregular::Face { face, sides_read } => write!(out, "face {face} read {sides_read}"),
            Irregular::Vertex { vertex, sides_read } => write!(out, "vertex {vertex} read {sides_read}"),
            Irregular::None { sides_read } => write!(out, "none read {sides_read}"),
        }
    }
}

/// The lowest face that has not four sides, else the lowest vertex that has not four corners, else none: faults 4 to
/// 13, 27 and 28.
///
/// ```
/// use mahunopi::{decode, irregular, Irregular};
///
/// let cube = decode(&std::fs::read("../../meshes/cube.dms")?)?;
/// assert_eq!(irregular(&cube)?, Irregular::Vertex { vertex: 0, sides_read: 6 });
/// let torus = decode(&std::fs::read("../../meshes/torus.dms")?)?;
/// assert_eq!(irregular(&torus)?.to_string(), "none read 96");
/// # Ok::<(), Box<dyn std::error::Error>>(())
/// ```
pub fn irregular<'a>(mesh: impl Into<MeshRef<'a>>) -> Result<Irregular, Refusal> {
    let mesh = mesh.into();
    let mut kind = 0;
    let mut found = 0;
    let mut read = 0;
    let mut place = 0;
    // SAFETY: each pointer goes with the length of its own slice, and what is written to overlaps nothing
    let number = unsafe {
        raw::mahunopi_irregular(
            mesh.coordinates.as_ptr(),
            mesh.coordinates.len(),
            mesh.sides.as_ptr(),
            mesh.sides.len(),
            mesh.corners.as_ptr(),
            mesh.corners.len(),
            mesh.sharpness.as_ptr(),
            mesh.sharpness.len(),
            &mut kind,
            &mut found,
            &mut read,
            &mut place,
        )
    };
    answer(number, place)?;
    // both are within the limits of a mesh
    let (found, sides_read) = (found as usize, read as usize);
    Ok(match kind {
        0 => Irregular::None { sides_read },
        1 => Irregular::Face { face: found, sides_read },
        _ => Irregular::Vertex { vertex: found, sides_read },
    })
}
