//! L9: what building answers and writes with one vertex moved, and the corners whose quad-nets a vertex can change.

use crate::{check, file::LENT_TOO_SHORT, refuse, surface::build, Lists, Refusal};

/// The lists with a vertex moved.
fn moved(coordinates: &[i32], vertex: usize, to: [i32; 3]) -> Vec<i32> {
    let own = |at: usize| if at / 3 == vertex { to[at % 3] } else { coordinates[at] };
    (0..coordinates.len()).map(own).collect()
}

/// Building on a copy with the vertex moved.
pub fn preview(
    lists: Lists,
    links: &[u16],
    first: usize,
    count: usize,
    vertex: usize,
    to: [i32; 3],
    output: &mut [i32],
) -> Result<(), Refusal> {
    if vertex >= lists.coordinates.len() / 3 {
        return refuse(29, vertex);
    }
    let coordinates = moved(lists.coordinates, vertex, to);
    build(Lists { coordinates: &coordinates, ..lists }, links, first, count, output)
}

/// A mark for each corner: 1 where one of the faces at its vertex has the given one.
pub fn touched(lists: Lists, vertex: usize, marks: &mut [u8]) -> Result<(), Refusal> {
    if vertex >= lists.coordinates.len() / 3 {
        return refuse(29, vertex);
    }
    check(lists)?;
    if marks.len() != lists.corners.len() {
        return refuse(LENT_TOO_SHORT, lists.corners.len());
    }
    let mut faces = Vec::new();
    let mut rest = lists.corners;
    for &side_count in lists.sides {
        let (face, later) = rest.split_at(usize::from(side_count));
        faces.push(face);
        rest = later;
    }
    let has = |face: &[u16], v: usize| face.iter().any(|&u| usize::from(u) == v);
    faces.retain(|face| has(face, vertex));
    for (mark, &own) in marks.iter_mut().zip(lists.corners) {
        *mark = u8::from(faces.iter().any(|face| has(face, usize::from(own))));
    }
    Ok(())
}
