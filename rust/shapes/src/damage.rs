//! Ways to damage the lists of a mesh, each aimed at one of the faults 4 to 13, 27 and 28. Where a mesh does not lend itself to
//! the aim the lists stay as they are or show another fault: the answer is compared either way.

use crate::{Random, Solid, Tables, LARGEST_COORDINATE, MAX_CORNERS, MAX_FACES, MAX_VERTICES, PLAIN, SHARPEST};

/// The faults that `damage` aims at, in the order that they are tried in.
pub const DAMAGES: [u32; 12] = [4, 27, 5, 6, 7, 8, 28, 9, 10, 11, 12, 13];

/// Damages the lists, aiming at the fault `number`. Corners that come or go have their sharpness come or go with them,
/// unless that is the aim.
pub fn damage(tables: &mut Tables, number: u32, random: &mut Random) {
    let paired = tables.sharpness.len() == 2 * tables.corners.len();
    damage_lists(tables, number, random);
    if paired && number != 27 {
        tables.sharpness.resize(2 * tables.corners.len(), PLAIN);
    }
}

fn damage_lists(tables: &mut Tables, number: u32, random: &mut Random) {
    match number {
        4 => lengths(tables, random),
        5 => {
            if let Some(face) = some(&tables.sides, random) {
                tables.sides[face] = *random.pick(&[0, 1, 2, 17, 18, 255]);
            }
        }
        6 => sum(tables, random),
        7 => {
            if let Some(position) = some(&tables.coordinates, random) {
                let beyond = LARGEST_COORDINATE + 1;
                tables.coordinates[position] = *random.pick(&[beyond, -beyond, i32::MAX, i32::MIN]);
            }
        }
        8 => {
            if let Some(corner) = some(&tables.corners, random) {
                let vertices = tables.vertices() as u16;
                tables.corners[corner] = *random.pick(&[vertices, vertices.saturating_add(1), u16::MAX]);
            }
        }
        27 => pairs(tables, random),
        28 => {
            if let Some(position) = some(&tables.sharpness, random) {
                tables.sharpness[position] = *random.pick(&[SHARPEST + 1, SHARPEST + 2, 128, 255]);
            }
        }
        9 => repeat(tables, random),
        10 => double(tables, random),
        11 => open(tables, random),
        12 => rings(tables, random),
        _ => pinch(tables, random),
    }
}

/// A position of a list that is not empty.
fn some<T>(list: &[T], random: &mut Random) -> Option<usize> {
    (!list.is_empty()).then(|| random.below(list.len()))
}

/// A face, its first corner and its side count, of lists with vertices whose side counts sum to the corners.
fn some_face(tables: &Tables, random: &mut Random) -> Option<(usize, usize, usize)> {
    let starts = tables.starts();
    let face = some(&tables.sides, random)?;
    let sides = starts[face + 1] - starts[face];
    let usable = starts[starts.len() - 1] == tables.corners.len() && sides >= 3 && tables.vertices() > 0;
    usable.then_some((face, starts[face], sides))
}

fn lengths(tables: &mut Tables, random: &mut Random) {
    match random.below(9) {
        0 => tables.coordinates.clear(),
        1 => tables.sides.clear(),
        2 => tables.corners.clear(),
        3 => drop(tables.coordinates.pop()),
        4 => tables.coordinates.push(0),
        5 => tables.coordinates.extend([7, 8]),
        // at the limit, which shows a later fault, or beyond it
        6 => tables.coordinates.resize(3 * (MAX_VERTICES + random.below(2)), 1),
        7 => tables.sides.resize(MAX_FACES + random.below(2), 3),
        _ => tables.corners.resize(MAX_CORNERS + random.below(2), 0),
    }
}

/// A sharpness list that is not twice as long as the corner list.
fn pairs(tables: &mut Tables, random: &mut Random) {
    let corners = tables.corners.len();
    let length =
        *random.pick(&[0, corners, (2 * corners).saturating_sub(1), 2 * corners + 1, 2 * corners + 2, 3 * corners]);
    tables.sharpness.resize(length, PLAIN);
}

fn sum(tables: &mut Tables, random: &mut Random) {
    match random.below(4) {
        0 => drop(tables.corners.pop()),
        1 => tables.corners.push(0),
        2 => tables.sides.push(3),
        _ => {
            if let Some(face) = some(&tables.sides, random) {
                tables.sides[face] = 3 + random.below(10) as u8;
            }
        }
    }
}

/// A corner takes the vertex of another corner of its face.
fn repeat(tables: &mut Tables, random: &mut Random) {
    if let Some((_, first, sides)) = some_face(tables, random) {
        let from = random.below(sides);
        let to = (from + 1 + random.below(sides - 1)) % sides;
        tables.corners[first + to] = tables.corners[first + from];
    }
}

/// A face is listed twice, turned over, or begins with the edge of another.
fn double(tables: &mut Tables, random: &mut Random) {
    let (face, first, sides) = match some_face(tables, random) {
        Some(found) => found,
        None => return,
    };
    let corners = first..first + sides;
    match random.below(3) {
        0 => {
            tables.sides.push(sides as u8);
            tables.corners.extend_from_within(corners);
        }
        1 => tables.corners[corners].reverse(),
        _ => {
            let other = random.below(tables.vertices()) as u16;
            let triangle = [tables.corners[first], tables.corners[first + 1], other];
            tables.sides.insert(face, 3);
            tables.corners.splice(first..first, triangle);
        }
    }
}

/// A face is left out, or a corner leads elsewhere.
fn open(tables: &mut Tables, random: &mut Random) {
    let (face, first, sides) = match some_face(tables, random) {
        Some(found) => found,
        None => return,
    };
    if random.once_in(2) {
        tables.sides.remove(face);
        tables.corners.drain(first..first + sides);
    } else {
        tables.coordinates.extend([1, 2, 3]);
        tables.corners[first + random.below(sides)] = (tables.vertices() - 1) as u16;
    }
}

fn append(tables: &mut Tables, solid: &Solid) {
    let more = Tables::of(solid);
    let offset = tables.vertices() as u16;
    tables.coordinates.extend(more.coordinates);
    tables.sides.extend(more.sides);
    tables.corners.extend(more.corners.iter().map(|v| v.wrapping_add(offset)));
}

/// A vertex without a corner, with two, or with seventeen and more.
fn rings(tables: &mut Tables, random: &mut Random) {
    match random.below(3) {
        0 => tables.coordinates.extend([4, 5, 6]),
        1 => {
            // two faces back to back
            let n = 3 + random.below(10);
            let mut faces: Vec<Vec<usize>> = vec![(0..n).collect(), (0..n).rev().collect()];
            random.shuffle(&mut faces);
            let points = vec![[1, 2, 3]; n];
            append(tables, &Solid { points, faces });
        }
        _ => append(tables, &Solid::bipyramid(17 + random.below(20))),
    }
}

/// Two vertices become one, whether parts touch in it or a part touches itself; the last vertex takes the free number.
pub fn pinch(tables: &mut Tables, random: &mut Random) {
    if random.once_in(2) || tables.vertices() < 2 {
        append(tables, &Solid::prism(3 + random.below(4)));
    }
    let last = (tables.vertices() - 1) as u16;
    let into = random.below(usize::from(last)) as u16;
    let away = into + 1 + random.below(usize::from(last - into)) as u16;
    for corner in &mut tables.corners {
        if *corner == away {
            *corner = into;
        } else if *corner == last {
            *corner = away;
        }
    }
    let moved = tables.coordinates.len() - 3;
    let end: Vec<i32> = tables.coordinates.drain(moved..).collect();
    if away != last {
        let at = 3 * usize::from(away);
        tables.coordinates[at..at + 3].copy_from_slice(&end);
    }
}
