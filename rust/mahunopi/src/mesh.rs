//! A mesh as four lists, owned or borrowed, and what is counted of one.

use std::fmt;

use crate::{MAX_CORNERS, MAX_SIDES, PLAIN_SHARPNESS};

/// 8 and 8 for every corner that a mesh may have.
static PLAIN: [u8; 2 * MAX_CORNERS] = [PLAIN_SHARPNESS; 2 * MAX_CORNERS];

/// A mesh: its four lists, which hold whatever they hold until a call checks them.
///
/// ```
/// use mahunopi::{link, Mesh};
///
/// // a tetrahedron whose vertices all lie at the origin
/// let mesh = Mesh::new(vec![0; 12], vec![3; 4], vec![0, 1, 2, 0, 2, 3, 0, 3, 1, 1, 3, 2]);
/// assert_eq!(link(&mesh)?[0], 6); // corner 0 leaves to vertex 1, corner 6 arrives from there
/// assert_eq!(mesh.sharpness, [8; 24]); // as soft as without sharpness
/// # Ok::<(), mahunopi::Refusal>(())
/// ```
#[derive(Clone, Debug, Default, PartialEq, Eq)]
#[non_exhaustive]
pub struct Mesh {
    /// x, y, z of vertex 0, then of vertex 1, and so on, in grid steps.
    pub coordinates: Vec<i32>,
    /// The side count of each face.
    pub sides: Vec<u8>,
    /// The vertex numbers of face 0 in order, then of face 1, and so on; a position in this list is a corner.
    pub corners: Vec<u16>,
    /// u and v of corner 0, then of corner 1, and so on, each 0 to 16: u pulls towards the leaving edge, v towards the
    /// arriving one.
    pub sharpness: Vec<u8>,
}

impl Mesh {
    /// The mesh of three lists, with sharpness 8 and 8 throughout.
    pub fn new(coordinates: Vec<i32>, sides: Vec<u8>, corners: Vec<u16>) -> Mesh {
        let sharpness = vec![PLAIN_SHARPNESS; 2 * corners.len()];
        Mesh { coordinates, sides, corners, sharpness }
    }

    /// The mesh with this sharpness: u and v of corner 0, then of corner 1, and so on.
    ///
    /// ```
    /// # use mahunopi::{link, Fault, Mesh};
    /// let mesh = Mesh::new(vec![0; 12], vec![3; 4], vec![0, 1, 2, 0, 2, 3, 0, 3, 1, 1, 3, 2]);
    /// assert!(link(&mesh.clone().with_sharpness(vec![16; 24])).is_ok());
    /// assert_eq!(link(&mesh.with_sharpness(vec![16; 23])).unwrap_err().fault, Fault::BadSharpnessLength);
    /// ```
    pub fn with_sharpness(self, sharpness: Vec<u8>) -> Mesh {
        Mesh { sharpness, ..self }
    }

    /// The mesh, borrowed.
    pub fn view(&self) -> MeshRef<'_> {
        MeshRef {
            coordinates: &self.coordinates,
            sides: &self.sides,
            corners: &self.corners,
            sharpness: &self.sharpness,
        }
    }
}

/// A mesh whose lists lie elsewhere. Every call takes one, or a reference to a [`Mesh`].
#[derive(Clone, Copy, Debug, Default, PartialEq, Eq)]
#[non_exhaustive]
pub struct MeshRef<'a> {
    /// x, y, z of vertex 0, then of vertex 1, and so on, in grid steps.
    pub coordinates: &'a [i32],
    /// The side count of each face.
    pub sides: &'a [u8],
    /// The vertex numbers of face 0 in order, then of face 1, and so on; a position in this list is a corner.
    pub corners: &'a [u16],
    /// u and v of corner 0, then of corner 1, and so on, each 0 to 16: u pulls towards the leaving edge, v towards the
    /// arriving one.
    pub sharpness: &'a [u8],
}

impl<'a> MeshRef<'a> {
    /// The mesh of three lists, with sharpness 8 and 8 throughout.
    pub fn new(coordinates: &'a [i32], sides: &'a [u8], corners: &'a [u16]) -> MeshRef<'a> {
        // a mesh of more corners is refused before its sharpness is looked at
        let sharpness = &PLAIN[..2 * corners.len().min(MAX_CORNERS)];
        MeshRef { coordinates, sides, corners, sharpness }
    }

    /// The mesh with this sharpness: u and v of corner 0, then of corner 1, and so on.
    pub fn with_sharpness(self, sharpness: &'a [u8]) -> MeshRef<'a> {
        MeshRef { sharpness, ..self }
    }

    /// A copy of the lists.
    pub fn to_mesh(self) -> Mesh {
        Mesh {
            coordinates: self.coordinates.to_vec(),
            sides: self.sides.to_vec(),
            corners: self.corners.to_vec(),
            sharpness: self.sharpness.to_vec(),
        }
    }
}

impl<'a> From<&'a Mesh> for MeshRef<'a> {
    fn from(mesh: &'a Mesh) -> MeshRef<'a> {
        mesh.view()
    }
}

/// The lengths of the four lists that [`decode_into`](crate::decode_into) or [`off_into`](crate::off_into) wrote.
#[derive(Clone, Copy, Debug, PartialEq, Eq)]
#[non_exhaustive]
pub struct Lengths {
    /// How many coordinates: three for each vertex.
    pub coordinates: usize,
    /// How many side counts: the faces.
    pub sides: usize,
    /// How many corners.
    pub corners: usize,
    /// How many sharpness numbers: two for each corner.
    pub sharpness: usize,
}

/// What [`survey`](crate::survey) counts of a file's mesh. It displays as the lines that the program `inspect` prints.
#[derive(Clone, Debug, PartialEq, Eq)]
#[non_exhaustive]
pub struct Counts {
    /// How many vertices.
    pub vertices: usize,
    /// How many faces.
    pub faces: usize,
    /// How many corners.
    pub corners: usize,
    pub(crate) vertices_with: [u16; MAX_SIDES + 1],
    pub(crate) faces_with: [u16; MAX_SIDES + 1],
}

impl Counts {
    /// How many vertices have m corners.
    pub fn vertices_with(&self, m: usize) -> usize {
        self.vertices_with.get(m).map_or(0, |&count| usize::from(count))
    }

    /// How many faces have m sides.
    pub fn faces_with(&self, m: usize) -> usize {
        self.faces_with.get(m).map_or(0, |&count| usize::from(count))
    }
}

impl fmt::Display for Counts {
    fn fmt(&self, out: &mut fmt::Formatter<'_>) -> fmt::Result {
        writeln!(out, "mesh {} {} {}", self.vertices, self.faces, self.corners)?;
        for m in 0..=MAX_SIDES {
            let (vertices, faces) = (self.vertices_with(m), self.faces_with(m));
            if (vertices, faces) != (0, 0) {
                writeln!(out, "{m} {vertices} {faces}")?;
            }
        }
        Ok(())
    }
}
