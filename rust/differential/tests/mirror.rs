//! A mesh and its mirror, in which one axis is negated and nothing else altered: the same answers, the same links, and the
//! same control points with that axis negated.

use differential::{build, each_case, link};
use reference::NUMBERS_PER_CORNER;
use shapes::{damage, random_tables, Random, Tables, DAMAGES};

/// One axis negated in a list of x, y, z, x, y, z and so on.
fn negated(numbers: &[i32], axis: usize) -> Vec<i32> {
    numbers.iter().enumerate().map(|(at, &n)| if at % 3 == axis { n.wrapping_neg() } else { n }).collect()
}

fn mirrored(tables: &Tables, axis: usize) -> Tables {
    Tables { coordinates: negated(&tables.coordinates, axis), ..tables.clone() }
}

/// Builds a range of both with these links; whether they were accepted.
fn compare(tables: &Tables, mirror: &Tables, axis: usize, links: &[u16], random: &mut Random) -> bool {
    let corners = tables.corners.len().max(1);
    let first = random.below(corners);
    let count = 1 + random.below(corners - first);
    let mut made = |tables: &Tables| build(tables, links, first, count, NUMBERS_PER_CORNER * count, random);
    let old = made(tables);
    let new = made(mirror);
    assert_eq!(new, old.as_ref().map(|points| negated(points, axis)).map_err(|&refusal| refusal), "axis {axis}");
    old.is_ok()
}

#[test]
fn random_meshes_and_their_mirrors() {
    let (mut accepted, mut below) = (0, 0);
    each_case(1_500, 9, |case, random| {
        let tables = random_tables(random);
        let axis = (case % 3) as usize;
        let mirror = mirrored(&tables, axis);
        let links = link(&tables, tables.corners.len(), random);
        assert_eq!(link(&mirror, tables.corners.len(), random), links, "the mirror is linked otherwise");
        if let Ok(links) = links {
            accepted += u32::from(compare(&tables, &mirror, axis, &links, random));
            below += u32::from(tables.coordinates.iter().any(|&n| n < 0));
        }
    });
    println!("accepted {accepted} meshes and their mirrors, {below} with negative coordinates");
    assert!(accepted > 0 && below > 0);
}

/// The mirror of a damaged mesh is refused for the same reason at the same place.
#[test]
fn damaged_meshes_and_their_mirrors() {
    let mut refused = 0;
    each_case(1_500, 10, |case, random| {
        let mut tables = random_tables(random);
        damage(&mut tables, DAMAGES[case as usize % DAMAGES.len()], random);
        let axis = random.below(3);
        let mirror = mirrored(&tables, axis);
        let links = link(&tables, tables.corners.len(), random);
        assert_eq!(link(&mirror, tables.corners.len(), random), links, "the mirror is linked otherwise");
        let links = links.unwrap_or_else(|_| vec![0; tables.corners.len()]);
        refused += u32::from(!compare(&tables, &mirror, axis, &links, random));
    });
    println!("refused {refused} meshes and their mirrors");
    assert!(refused > 0);
}
