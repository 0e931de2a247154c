//! The surface as closed triangles: the proved library against the independent implementation on random meshes with random
//! levels, and of what the library leaves that it closes, uses every point, has the mesh's Euler number, mirrors with the
//! mesh and is the same however it is cut into ranges and given to threads.

use std::collections::{BTreeMap, HashMap, HashSet};
use std::num::NonZeroUsize;

use differential::{count_triangles, each_case, each_case_apart, lists, mesh, tangents, triangles, Corners};
use reference::{links_of, MOST_PARTS};
use shapes::{damage, random_tables, Random, Tables, DAMAGES};

/// Levels of six kinds.
fn random_levels(corners: usize, random: &mut Random) -> Vec<u8> {
    let kind = random.below(6);
    let one = 1 + random.below(MOST_PARTS) as u8;
    let two = [1 + random.below(MOST_PARTS) as u8, one];
    (0..corners)
        .map(|_| match kind {
            0 => 1 + random.below(MOST_PARTS) as u8,
            1 => 1 + random.below(3) as u8,
            2 => 1,
            3 => *random.pick(&two),
            4 => *random.pick(&[16, 1, 1, 1, 1, 1, 1, 1]),
            _ => one,
        })
        .collect()
}

/// An accepted mesh of at most `most` corners, its links and levels.
fn random_mesh(most: usize, random: &mut Random) -> (Tables, Vec<u16>, Vec<u8>) {
    loop {
        let tables = random_tables(random);
        if tables.corners.len() <= most {
            if let Ok(links) = links_of(lists(&tables)) {
                let levels = random_levels(tables.corners.len(), random);
                return (tables, links, levels);
            }
        }
    }
}

/// The whole surface, as the library and the reference leave it.
fn whole(tables: &Tables, links: &[u16], levels: &[u8], random: &mut Random) -> (Vec<[i32; 3]>, Vec<[u32; 3]>) {
    let range = Corners { first: 0, count: tables.corners.len() };
    let (room, space) = count_triangles(tables, links, levels, range).expect("an accepted mesh");
    let more = [room + random.below(5), space + random.below(5)];
    let (points, three) = triangles(tables, links, levels, range, more, random).expect("room enough");
    let points = points.chunks_exact(3).map(|p| [p[0], p[1], p[2]]).collect();
    (points, three.chunks_exact(3).map(|t| [t[0], t[1], t[2]]).collect())
}

/// Thousands of small meshes: all corners, and a range of them.
#[test]
fn as_the_reference() {
    each_case_apart(3_000, 0x7419_0011, |_, random| {
        let (tables, links, levels) = random_mesh(96, random);
        let all = whole(&tables, &links, &levels, random);
        let corners = tables.corners.len();
        let first = random.below(corners);
        let range = Corners { first, count: 1 + random.below(corners - first) };
        let (room, space) = count_triangles(&tables, &links, &levels, range).unwrap();
        let (_, part) = triangles(&tables, &links, &levels, range, [room, space], random).unwrap();
        assert!(part.iter().all(|&index| (index as usize) < all.0.len()));
        tangents(&tables, &links, &levels, range, 2 * room + random.below(5), random).unwrap();
        if random.once_in(8) {
            let refusal = tangents(&tables, &links, &levels, range, random.below(2 * room), random).unwrap_err();
            assert_eq!((refusal.number, refusal.place), (255, 2 * room as u64));
        }
    });
}

#[test]
fn closed_used_and_of_the_same_shape() {
    each_case(300, 0x7419_0012, |_, random| {
        let (tables, links, levels) = random_mesh(300, random);
        let (points, three) = whole(&tables, &links, &levels, random);
        let mut edges = HashMap::new();
        for (number, t) in three.iter().enumerate() {
            for e in 0..3 {
                assert_eq!(edges.insert((t[e], t[(e + 1) % 3]), number), None, "an edge that occurs twice");
            }
        }
        assert!(edges.keys().all(|&(from, to)| edges.contains_key(&(to, from))), "an edge without its reverse");
        let used: HashSet<u32> = three.iter().flatten().copied().collect();
        assert_eq!(used.len(), points.len(), "points that are not used");
        let euler = (tables.vertices() + tables.sides.len()) as i64 - (tables.corners.len() / 2) as i64;
        assert_eq!(points.len() as i64 - (edges.len() / 2) as i64 + three.len() as i64, euler);
    });
}

#[test]
fn any_cut_into_ranges_gives_the_same() {
    each_case_apart(200, 0x7419_0013, |_, random| {
        let (tables, links, levels) = random_mesh(300, random);
        let corners = tables.corners.len();
        let all = mahunopi::triangles(mesh(&tables), &links, &levels).unwrap();
        let (mut points, mut three) = (Vec::new(), Vec::new());
        let mut first = 0;
        while first < corners {
            let range = Corners { first, count: 1 + random.below(corners - first) };
            let (room, space) = count_triangles(&tables, &links, &levels, range).unwrap();
            let (some_points, some_three) = triangles(&tables, &links, &levels, range, [room, space], random).unwrap();
            points.extend(some_points);
            three.extend(some_three);
            first += range.count;
        }
        assert!(points == all.points && three == all.triangles);
    });
}

/// On threads, with the largest meshes among them.
#[test]
fn any_number_of_threads_gives_the_same() {
    each_case(40, 0x7419_0014, |_, random| {
        let (tables, links, levels) = random_mesh(8_192, random);
        let levels: Vec<u8> = levels.iter().map(|&level| level.min(4)).collect();
        let all = mahunopi::triangles(mesh(&tables), &links, &levels).unwrap();
        for threads in [1, 2, 3, 7] {
            let threads = NonZeroUsize::new(threads);
            assert!(mahunopi::triangles_all(mesh(&tables), &links, &levels, threads).unwrap() == all);
        }
    });
}

/// Every refusal, alone and before the later ones.
#[test]
fn every_refusal() {
    let mut seen = HashSet::new();
    each_case(4_000, 0x7419_0015, |_, random| {
        let (mut tables, mut links, mut levels) = random_mesh(60, random);
        let corners = tables.corners.len();
        if random.once_in(3) {
            let kind = *random.pick(&DAMAGES);
            damage(&mut tables, kind, random);
        }
        if random.once_in(4) {
            links.resize(random.below(corners + 3), 0);
        }
        if random.once_in(4) {
            let at = random.below(links.len().max(1));
            links.iter_mut().skip(at).take(1).for_each(|link| *link ^= 1);
        }
        if random.once_in(4) {
            levels.resize(random.below(corners + 3), 1);
        }
        if random.once_in(3) {
            let at = random.below(levels.len().max(1));
            let wrong = *random.pick(&[0, 17, 255]);
            levels.iter_mut().skip(at).take(1).for_each(|level| *level = wrong);
        }
        let mut range = Corners { first: 0, count: corners };
        if random.once_in(3) {
            range.first = *random.pick(&[0, 1, corners - 1, corners, corners + 1, usize::MAX]);
            range.count = *random.pick(&[0, 1, 2, corners, usize::MAX]);
        }
        let [room, space] = match count_triangles(&tables, &links, &levels, range) {
            Ok((points, three)) => {
                [points - random.below(2).min(points), three + random.below(3) - random.below(2).min(three)]
            }
            Err(refusal) => {
                seen.insert(refusal.number);
                [random.below(9), random.below(9)]
            }
        };
        if let Err(refusal) = triangles(&tables, &links, &levels, range, [room, space], random) {
            seen.insert(refusal.number);
        }
    });
    assert!([14, 15, 16, 39, 40, 255].iter().all(|number| seen.contains(number)), "{seen:?}");
}

/// A triangle by its three points, from the least on.
fn by_points(points: &[[i32; 3]], three: &[[u32; 3]]) -> BTreeMap<[[i32; 3]; 3], usize> {
    let mut all = BTreeMap::new();
    for t in three {
        let mut t = t.map(|index| points[index as usize]);
        let least = (0..3).min_by_key(|&e| (t[e], t[(e + 1) % 3])).unwrap();
        t.rotate_left(least);
        *all.entry(t).or_default() += 1;
    }
    all
}

/// The mesh seen in a mirror: x negated, each face run the other way from the same first corner, and of each corner's
/// sharpness u and v exchanged. Corner i of an n-sided face is then corner (n - i) % n.
#[test]
fn a_mirrored_mesh_has_the_mirrored_triangles() {
    each_case(200, 0x7419_0016, |_, random| {
        let (tables, links, levels) = random_mesh(200, random);
        let mut other = tables.clone();
        other.coordinates.iter_mut().step_by(3).for_each(|x| *x = -*x);
        let mut other_levels = levels.clone();
        for ends in tables.starts().windows(2) {
            let (first, n) = (ends[0], ends[1] - ends[0]);
            for i in 0..n {
                let (from, to) = (first + i, first + (n - i) % n);
                other.corners[to] = tables.corners[from];
                other.sharpness[2 * to] = tables.sharpness[2 * from + 1];
                other.sharpness[2 * to + 1] = tables.sharpness[2 * from];
                other_levels[to] = levels[from];
            }
        }
        let other_links = links_of(lists(&other)).unwrap();
        let (points, three) = whole(&tables, &links, &levels, random);
        let (other_points, other_three) = whole(&other, &other_links, &other_levels, random);
        let back: Vec<[i32; 3]> = other_points.iter().map(|&[x, y, z]| [-x, y, z]).collect();
        let wound_back: Vec<[u32; 3]> = other_three.iter().map(|&[a, b, c]| [a, c, b]).collect();
        assert!(by_points(&points, &three) == by_points(&back, &wound_back));
    });
}
