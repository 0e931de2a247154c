//! L13, faces drawn the wrong way round: checks 36, 4 to 9 with 27 and 28, 34 and 35, and the turning. From the lowest
//! face of each part on, every face tells its neighbours whether they have to be turned.

use crate::check::{check_faces, Order};
use crate::file::{encode, held};
use crate::{refuse, Lists, Refusal};

/// The other corner that each corner's edge leaves, whatever its direction, in lists without a fault of 4 to 9: fault 34
/// where an edge leaves another number of corners than two. No face has an edge twice, so that many faces have it.
fn across(lists: Lists) -> Result<Vec<usize>, Refusal> {
    let count = lists.corners.len();
    let order = Order::new(lists.sides, count);
    let mut by_edge: Vec<([u16; 2], usize)> = (0..count)
        .map(|corner| {
            let mut ends = [corner, order.next(corner)].map(|c| lists.corners[c]);
            ends.sort_unstable();
            (ends, corner)
        })
        .collect();
    by_edge.sort_unstable();
    let mut across = vec![0; count];
    let mut lowest = count;
    let mut rest = &by_edge[..];
    while let Some(&(ends, corner)) = rest.first() {
        let (edge, others) = rest.split_at(rest.partition_point(|&(other, _)| other == ends));
        match *edge {
            [(_, one), (_, other)] => {
                across[one] = other;
                across[other] = one;
            }
            _ => lowest = lowest.min(corner),
        }
        rest = others;
    }
    if lowest < count {
        return refuse(34, lowest);
    }
    Ok(across)
}

/// Whether each face is turned, where the lowest face of every part is not: fault 35 where that cannot be.
fn turns(lists: Lists, across: &[usize]) -> Result<Vec<bool>, Refusal> {
    let mut first_of = Vec::new();
    let mut face_of = Vec::new();
    for (face, &side_count) in lists.sides.iter().enumerate() {
        first_of.push(face_of.len());
        face_of.resize(face_of.len() + usize::from(side_count), face);
    }
    let mut turned = vec![None; lists.sides.len()];
    for lowest in 0..turned.len() {
        if turned[lowest].is_some() {
            continue;
        }
        turned[lowest] = Some(false);
        let mut waiting = vec![(lowest, false)];
        while let Some((face, own)) = waiting.pop() {
            let first = first_of[face];
            let sides = usize::from(lists.sides[face]);
            for (corner, &other) in across.iter().enumerate().skip(first).take(sides) {
                // two faces that leave the edge from the same end run along it in the same direction: one has to turn
                let asked = own != (lists.corners[corner] == lists.corners[other]);
                let neighbour = face_of[other];
                match turned[neighbour] {
                    None => {
                        turned[neighbour] = Some(asked);
                        waiting.push((neighbour, asked));
                    }
                    Some(before) if before != asked => return refuse(35, lowest),
                    Some(_) => {}
                }
            }
        }
    }
    Ok(turned.into_iter().map(|turn| turn == Some(true)).collect())
}

/// Turns faces: corners and sharpness become those of the turned model, the listing begins with the turned faces, and
/// their number is the answer; or everything is left as it is, with the reason.
pub fn turn(
    coordinates: &[i32],
    sides: &[u8],
    corners: &mut [u16],
    sharpness: &mut [u8],
    listing: &mut [u16],
) -> Result<usize, Refusal> {
    if listing.len() != sides.len() {
        return refuse(36, listing.len());
    }
    let lists = Lists { coordinates, sides, corners, sharpness };
    check_faces(lists)?;
    let turned = turns(lists, &across(lists)?)?;

    let mut count = 0;
    let mut first = 0;
    for (face, &side_count) in sides.iter().enumerate() {
        let end = first + usize::from(side_count);
        if turned[face] {
            corners[first + 1..end].reverse();
            // number by number, so that u and v change places with the corners; the first corner's where it stands
            sharpness[2 * first..2 * first + 2].reverse();
            sharpness[2 * first + 2..2 * end].reverse();
            listing[count] = face as u16;
            count += 1;
        }
        first = end;
    }
    Ok(count)
}

/// What the program `turn` makes of a file: the turned file, in the same version, and the turned faces. Faults 1 to 9,
/// 28, 34 and 35.
pub fn turn_file(bytes: &[u8]) -> Result<(Vec<u8>, Vec<u16>), Refusal> {
    let mut model = held(bytes, bytes.len() as u64)?;
    let mut listing = vec![0; model.sides.len()];
    let count = turn(&model.coordinates, &model.sides, &mut model.corners, &mut model.sharpness, &mut listing)?;
    listing.truncate(count);
    Ok((encode(model.lists(), model.version), listing))
}
