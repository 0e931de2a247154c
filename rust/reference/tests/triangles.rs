//! The surface as closed triangles: refusals in their order, a tetrahedron by hand, and on random meshes with random
//! levels that the triangles close, use every point, have the mesh's Euler number and one fan at each point, are the
//! plain grid where all levels are one, mirror with the mesh, and are the same however they are cut into ranges.

use std::collections::{BTreeMap, HashMap, HashSet};

use reference::{
    build, count_triangles, links_of, sample_tangents, small_triangles, tangents, triangles, Lists, Refusal,
    MOST_PARTS, NUMBERS_PER_CORNER,
};
use shapes::{random_tables, Random, Solid, Tables};

fn refused<T>(number: u32, place: usize) -> Result<T, Refusal> {
    Err(Refusal { number, place: place as u64 })
}

fn lists(tables: &Tables) -> Lists<'_> {
    let Tables { coordinates, sides, corners, sharpness } = tables;
    Lists { coordinates, sides, corners, sharpness }
}

/// Points and triangles of a range.
fn of_range(
    tables: &Tables,
    links: &[u16],
    levels: &[u8],
    first: usize,
    count: usize,
) -> (Vec<[i32; 3]>, Vec<[u32; 3]>) {
    let (point_numbers, indices) = count_triangles(lists(tables), links, levels, first, count).unwrap();
    let mut points = vec![77; point_numbers + 1];
    let mut three = vec![99; indices + 1];
    let written = triangles(lists(tables), links, levels, first, count, &mut points, &mut three);
    assert_eq!(written, Ok((point_numbers, indices)));
    assert_eq!((points.pop(), three.pop()), (Some(77), Some(99)), "entries behind the last");
    let points = points.chunks_exact(3).map(|p| [p[0], p[1], p[2]]).collect();
    (points, three.chunks_exact(3).map(|t| [t[0], t[1], t[2]]).collect())
}

/// Levels of six kinds.
fn random_levels(corners: usize, random: &mut Random) -> Vec<u8> {
    let kind = random.below(6);
    let one = 1 + random.below(MOST_PARTS) as u8;
    let two = [1 + random.below(MOST_PARTS) as u8, one];
    (0..corners)
        .map(|_| match kind {
            0 => 1 + random.below(MOST_PARTS) as u8,
            1 => 1 + random.below(3) as u8,
            2 => 1,
            3 => *random.pick(&two),
            4 => *random.pick(&[16, 1, 1, 1, 1, 1, 1, 1]),
            _ => one,
        })
        .collect()
}

/// Accepted meshes of at most 300 corners with levels.
fn random_meshes(seed: u64, many: usize) -> impl Iterator<Item = (Tables, Vec<u16>, Vec<u8>, Random)> {
    let mut random = Random::new(seed);
    std::iter::from_fn(move || loop {
        let tables = random_tables(&mut random);
        if tables.corners.len() > 300 {
            continue;
        }
        if let Ok(links) = links_of(lists(&tables)) {
            let levels = random_levels(tables.corners.len(), &mut random);
            let own = Random::new(random.bits());
            return Some((tables, links, levels, own));
        }
    })
    .take(many)
}

#[test]
fn refusals_in_their_order() {
    let tables = Tables::of(&Solid::tetrahedron());
    let links = links_of(lists(&tables)).unwrap();
    let mut levels = vec![2; 12];
    let count =
        |links: &[u16], levels: &[u8], first, count| count_triangles(lists(&tables), links, levels, first, count);
    assert_eq!(count(&links[1..], &[], 0, 0), refused(14, 11));
    assert_eq!(count(&[0; 12], &[], 0, 0), refused(15, usize::from(links[0] == 0)));
    assert_eq!(count(&links, &[], 3, 0), refused(16, 3));
    assert_eq!(count(&links, &[], 3, 10), refused(16, 3));
    assert_eq!(count(&links, &levels[..11], 3, 9), refused(39, 11));
    levels[7] = 0;
    levels[9] = 17;
    assert_eq!(count(&links, &levels, 0, 12), refused(40, 7));
    levels[7] = 16;
    assert_eq!(count(&links, &levels, 0, 12), refused(40, 9));
    levels.fill(2);
    assert_eq!(count(&links, &levels, 0, 12), Ok((3 * 98, 3 * 192)));
    let mut points = [5; 3 * 98];
    let mut three = [6; 3 * 192];
    let mut fill = |room: usize, space: usize| {
        let answer = triangles(lists(&tables), &links, &levels, 0, 12, &mut points[..room], &mut three[..space]);
        (answer, points[0], three[0])
    };
    assert_eq!(fill(293, 575), (refused(255, 294), 5, 6));
    assert_eq!(fill(294, 575), (refused(255, 576), 5, 6));
    assert_eq!(fill(294, 576).0, Ok((294, 576)));
}

/// Worked out by the definitions themselves (crates/triangles/proofs/Examples.antt): level 2 at the first corner, 1
/// elsewhere; the 16 triangles of a tetrahedron's first corner, four for each side, and the ten points of a cube's.
#[test]
fn worked_out_by_the_definitions() {
    let tetrahedron = Tables::plain(vec![0; 12], vec![3; 4], vec![0, 1, 2, 0, 2, 3, 0, 3, 1, 1, 3, 2]);
    let links = links_of(lists(&tetrahedron)).unwrap();
    let mut levels = vec![1; 12];
    levels[0] = 2;
    let (points, three) = of_range(&tetrahedron, &links, &levels, 0, 12);
    assert_eq!((points.len(), three.len()), (34, 64));
    let (points, three) = of_range(&tetrahedron, &links, &levels, 0, 1);
    assert_eq!(points.len(), 10);
    let sides = [
        [[0, 3, 5], [3, 1, 6], [6, 5, 3], [5, 6, 9]],
        [[1, 4, 6], [4, 2, 7], [7, 6, 4], [6, 7, 9]],
        [[2, 15, 7], [15, 14, 8], [8, 7, 15], [7, 8, 9]],
        [[14, 18, 8], [18, 0, 5], [5, 8, 18], [8, 5, 9]],
    ];
    assert_eq!(three, sides.concat());

    let cube = Tables::plain(
        [[3, 3, 3], [3, -3, 3], [-3, -3, 3], [-3, 3, 3], [3, 3, -3], [3, -3, -3], [-3, -3, -3], [-3, 3, -3]].concat(),
        vec![4; 6],
        vec![0, 1, 2, 3, 4, 7, 6, 5, 1, 0, 4, 5, 2, 1, 5, 6, 3, 2, 6, 7, 0, 3, 7, 4],
    );
    let links = links_of(lists(&cube)).unwrap();
    let mut levels = vec![1; 24];
    levels[0] = 2;
    let (points, _) = of_range(&cube, &links, &levels, 0, 1);
    let expected = [
        [512, 512, 512],
        [576, 0, 576],
        [0, 0, 768],
        [560, 320, 560],
        [336, 0, 720],
        [451, 451, 593],
        [466, 181, 653],
        [180, 180, 745],
        [181, 466, 653],
        [333, 333, 681],
    ];
    assert_eq!(points, expected);
}

/// Every directed edge and the triangle that has it.
fn edges(three: &[[u32; 3]]) -> HashMap<(u32, u32), usize> {
    let mut edges = HashMap::new();
    for (number, t) in three.iter().enumerate() {
        for e in 0..3 {
            assert_ne!(t[e], t[(e + 1) % 3], "an edge from a point to itself");
            assert_eq!(edges.insert((t[e], t[(e + 1) % 3]), number), None, "an edge that occurs twice");
        }
    }
    edges
}

/// The closed parts of a mesh, by joined vertices; E - V + F and so on count over all of them.
fn euler(tables: &Tables) -> i64 {
    (tables.vertices() + tables.sides.len()) as i64 - (tables.corners.len() / 2) as i64
}

#[test]
fn closed_used_and_of_the_same_shape() {
    for (tables, links, levels, _) in random_meshes(0x7419_0001, 60) {
        let (points, three) = of_range(&tables, &links, &levels, 0, tables.corners.len());
        let edges = edges(&three);
        assert!(edges.keys().all(|&(from, to)| edges.contains_key(&(to, from))), "an edge without its reverse");
        let used: HashSet<u32> = three.iter().flatten().copied().collect();
        assert_eq!(used.len(), points.len(), "points that are not used");
        assert!(used.iter().all(|&index| (index as usize) < points.len()));
        assert_eq!(points.len() as i64 - (edges.len() / 2) as i64 + three.len() as i64, euler(&tables));
        // one fan at each point: from triangle to triangle round it every triangle at it is met
        let mut at: HashMap<u32, Vec<usize>> = HashMap::new();
        for (number, t) in three.iter().enumerate() {
            t.iter().for_each(|&index| at.entry(index).or_default().push(number));
        }
        for (&index, fan) in &at {
            let mut met = 0;
            let mut triangle = fan[0];
            loop {
                met += 1;
                let t = three[triangle];
                let e = t.iter().position(|&i| i == index).unwrap();
                triangle = edges[&(index, t[(e + 2) % 3])];
                if triangle == fan[0] {
                    break;
                }
            }
            assert_eq!(met, fan.len(), "a point where two fans meet");
        }
    }
}

#[test]
fn any_cut_into_ranges_gives_the_same() {
    for (tables, links, levels, mut random) in random_meshes(0x7419_0002, 20) {
        let corners = tables.corners.len();
        let whole = of_range(&tables, &links, &levels, 0, corners);
        let mut joined = (Vec::new(), Vec::new());
        let mut first = 0;
        while first < corners {
            let count = 1 + random.below(corners - first);
            let (points, three) = of_range(&tables, &links, &levels, first, count);
            joined.0.extend(points);
            joined.1.extend(three);
            first += count;
        }
        assert!(joined == whole);
    }
}

/// A triangle by its three points, from the least on.
fn turned(mut t: [[i32; 3]; 3]) -> [[i32; 3]; 3] {
    let least = (0..3).min_by_key(|&e| (t[e], t[(e + 1) % 3])).unwrap();
    t.rotate_left(least);
    t
}

fn by_points(points: &[[i32; 3]], three: &[[u32; 3]]) -> BTreeMap<[[i32; 3]; 3], usize> {
    let mut all = BTreeMap::new();
    for t in three {
        *all.entry(turned(t.map(|index| points[index as usize]))).or_default() += 1;
    }
    all
}

#[test]
fn one_level_is_the_plain_grid() {
    for (tables, links, _, mut random) in random_meshes(0x7419_0003, 20) {
        let corners = tables.corners.len();
        let level = 1 + random.below(MOST_PARTS);
        let (points, three) = of_range(&tables, &links, &vec![level as u8; corners], 0, corners);
        let mut output = vec![0; NUMBERS_PER_CORNER * corners];
        build(lists(&tables), &links, 0, corners, &mut output).unwrap();
        let mut grid = BTreeMap::new();
        for net in output.chunks_exact(NUMBERS_PER_CORNER) {
            for t in small_triangles(net, level) {
                *grid.entry(turned(t)).or_default() += 1;
            }
        }
        assert!(by_points(&points, &three) == grid);
    }
}

/// The mesh seen in a mirror: x negated, each face run the other way from the same first corner, and of each corner's
/// sharpness u and v exchanged. Corner i of an n-sided face is then corner (n - i) % n.
fn mirrored(tables: &Tables, levels: &[u8]) -> (Tables, Vec<u8>) {
    let mut other = tables.clone();
    other.coordinates.iter_mut().step_by(3).for_each(|x| *x = -*x);
    let mut other_levels = levels.to_vec();
    for ends in tables.starts().windows(2) {
        let (first, n) = (ends[0], ends[1] - ends[0]);
        for i in 0..n {
            let (from, to) = (first + i, first + (n - i) % n);
            other.corners[to] = tables.corners[from];
            other.sharpness[2 * to] = tables.sharpness[2 * from + 1];
            other.sharpness[2 * to + 1] = tables.sharpness[2 * from];
            other_levels[to] = levels[from];
        }
    }
    (other, other_levels)
}

#[test]
fn a_mirrored_mesh_has_the_mirrored_triangles() {
    for (tables, links, levels, _) in random_meshes(0x7419_0004, 20) {
        let corners = tables.corners.len();
        let (points, three) = of_range(&tables, &links, &levels, 0, corners);
        let (other, other_levels) = mirrored(&tables, &levels);
        let other_links = links_of(lists(&other)).unwrap();
        let (other_points, other_three) = of_range(&other, &other_links, &other_levels, 0, corners);
        let back: Vec<[i32; 3]> = other_points.iter().map(|&[x, y, z]| [-x, y, z]).collect();
        let wound_back: Vec<[u32; 3]> = other_three.iter().map(|&[a, b, c]| [a, c, b]).collect();
        assert!(by_points(&points, &three) == by_points(&back, &wound_back));
    }
}

/// The tangents of a range are those of all corners; at a point they are those of one sample; and along a border the first
/// is the same from both nets.
#[test]
fn tangents_of_points_of_ranges_and_along_borders() {
    const NEIGHBOURS_SIDE: [usize; 4] = [3, 2, 1, 0];
    for (tables, links, levels, mut random) in random_meshes(0x7419_0005, 15) {
        let corners = tables.corners.len();
        let whole = tangents(lists(&tables), &links, &levels, 0, corners).unwrap();
        let first = random.below(corners);
        let count = 1 + random.below(corners - first);
        let from = match first {
            0 => 0,
            _ => count_triangles(lists(&tables), &links, &levels, 0, first).unwrap().0 / 3,
        };
        let part = tangents(lists(&tables), &links, &levels, first, count).unwrap();
        assert!(part[..] == whole[from..from + part.len()]);

        let nets = reference::nets(lists(&tables)).unwrap();
        let mut output = vec![0; NUMBERS_PER_CORNER * corners];
        build(lists(&tables), &links, 0, corners, &mut output).unwrap();
        let net = |corner: usize| &output[NUMBERS_PER_CORNER * corner..NUMBERS_PER_CORNER * (corner + 1)];
        for corner in 0..corners {
            let side = random.below(4);
            let parts = 1 + random.below(MOST_PARTS);
            let j = random.below(parts + 1);
            let weights = [parts - j, j, 0];
            let one = sample_tangents(net(corner), side, weights, parts).unwrap();
            let other =
                sample_tangents(net(nets[corner].neighbour_corner[side]), NEIGHBOURS_SIDE[side], weights, parts)
                    .unwrap();
            assert_eq!(one[0], other[0]);
        }
        // the centre of the last corner's net is the last point
        let level = usize::from(levels[corners - 1]);
        assert_eq!(Ok(whole[whole.len() - 1]), sample_tangents(net(corners - 1), 0, [0, 0, level], level));
    }
}
