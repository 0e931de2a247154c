//! Turning the faces of a model that are drawn the wrong way round.

use crate::{raw, refusal::answer, Mesh, MeshRef, Refusal};

/// A model whose faces run the same way round, and the faces that were turned for it.
#[derive(Clone, Debug, PartialEq, Eq)]
#[non_exhaustive]
pub struct Turned {
    /// The model with these faces turned: it passes 10 and 11.
    pub mesh: Mesh,
    /// The turned faces, by rising number.
    pub faces: Vec<usize>,
}

/// Turns faces of lent lists until every edge runs once each way, and keeps the lowest face of each connected part. The
/// lent corners and their sharpness become those of the turned model, and the turned faces, by rising number, fill the
/// beginning of the listing, which has an entry for each face; the answer is how many they are. Fault 36, then 4 to 9
/// with 27 and 28, then 34 and 35.
pub fn turn_into(
    coordinates: &[i32],
    sides: &[u8],
    corners: &mut [u16],
    sharpness: &mut [u8],
    listing: &mut [u16],
) -> Result<usize, Refusal> {
    let mut turned = 0;
    let mut place = 0;
    // SAFETY: each pointer goes with the length of its own slice, and the lent slices and numbers overlap nothing
    let number = unsafe {
        raw::mahunopi_turn(
            coordinates.as_ptr(),
            coordinates.len(),
            sides.as_ptr(),
            sides.len(),
            corners.as_mut_ptr(),
            corners.len(),
            sharpness.as_mut_ptr(),
            sharpness.len(),
            listing.as_mut_ptr(),
            listing.len(),
            &mut turned,
            &mut place,
        )
    };
    answer(number, place)?;
    // no more than there are faces
    Ok(turned as usize)
}

/// Turns faces of the mesh until every edge runs once each way, and keeps the lowest face of each connected part; the
/// turned faces, by rising number. A refused mesh stays as it is: faults 4 to 9 with 27 and 28, then 34 and 35.
///
/// ```
/// use mahunopi::{decode, link, turn_in_place, Fault};
///
/// let mut cube = decode(&std::fs::read("../../meshes/cube.dms")?)?;
/// cube.corners[9..12].reverse(); // face 2, all but its first corner
/// assert_eq!(link(&cube).unwrap_err().fault, Fault::EdgeTwice);
/// assert_eq!(turn_in_place(&mut cube)?, [2]);
/// assert!(link(&cube).is_ok());
/// assert_eq!(turn_in_place(&mut cube)?, []);
/// # Ok::<(), Box<dyn std::error::Error>>(())
/// ```
pub fn turn_in_place(mesh: &mut Mesh) -> Result<Vec<usize>, Refusal> {
    let mut listing = vec![0; mesh.sides.len()];
    let Mesh { coordinates, sides, corners, sharpness } = mesh;
    let count = turn_into(coordinates, sides, corners, sharpness, &mut listing)?;
    Ok(listing[..count].iter().map(|&face| usize::from(face)).collect())
}

/// A copy of the mesh with faces turned as by [`turn_in_place`], and these faces: faults 4 to 9 with 27 and 28, then 34
/// and 35. A turned model may still be refused by 12 or 13.
///
/// ```
/// use mahunopi::{turn, Fault, MeshRef};
///
/// // a tetrahedron whose face 3 is drawn the wrong way round
/// let model = MeshRef::new(&[0; 12], &[3; 4], &[0, 1, 2, 0, 2, 3, 0, 3, 1, 1, 2, 3]);
/// let turned = turn(model)?;
/// assert_eq!(turned.faces, [3]);
/// assert_eq!(turned.mesh.corners[9..], [1, 3, 2]);
/// // without face 0 the edge that leaves corner 0 is in one face
/// let refusal = turn(MeshRef::new(&[0; 12], &[3; 3], &model.corners[3..])).unwrap_err();
/// assert_eq!((refusal.fault, refusal.place), (Fault::EdgeNotInTwoFaces, 0));
/// # Ok::<(), mahunopi::Refusal>(())
/// ```
pub fn turn<'a>(mesh: impl Into<MeshRef<'a>>) -> Result<Turned, Refusal> {
    let mut mesh = mesh.into().to_mesh();
    let faces = turn_in_place(&mut mesh)?;
    Ok(Turned { mesh, faces })
}
