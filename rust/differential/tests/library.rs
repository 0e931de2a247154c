//! The proved library against the independent implementation, on meshes from fixed seeds.

use std::num::NonZeroUsize;

use differential::{build, decode, each_case, link, lists, mesh, survey, version};
use mahunopi::build_all;
use reference::conditions::{borders, BOUND};
use reference::{encode, Refusal, LENT_TOO_SHORT, MOST, NUMBERS_PER_CORNER};
use shapes::{damage, random_tables, Places, Random, Sharpness, Solid, Tables, DAMAGES};

/// Spaces that every file fits in.
const ENOUGH: [usize; 4] = [6_144, 4_096, 8_192, 16_384];
/// How many numbers m a survey counts, from 0 on.
const NUMBERS: usize = MOST + 1;

/// Links a mesh, builds it whole, and measures the borders from what the library wrote.
fn whole(tables: &Tables, random: &mut Random) -> Option<(Vec<u16>, Vec<i32>, [i64; 4])> {
    let corners = tables.corners.len();
    let links = link(tables, corners, random).ok()?;
    let output = build(tables, &links, 0, corners, NUMBERS_PER_CORNER * corners, random).expect("an accepted mesh");
    let found = borders(lists(tables), &output).expect("an accepted mesh");
    assert_eq!((found.met, found.split), (2 * corners, 0), "a common curve differs between two nets");
    assert!(found.largest.iter().all(|&miss| miss <= BOUND), "a condition is missed: {:?}", found.largest);
    Some((links, output, found.largest))
}

/// Builds a range and compares it with the same range of the whole.
fn range(tables: &Tables, links: &[u16], whole: &[i32], first: usize, count: usize, random: &mut Random) {
    let numbers = NUMBERS_PER_CORNER * first..NUMBERS_PER_CORNER * (first + count);
    let part = build(tables, links, first, count, numbers.len(), random).expect("a range of an accepted mesh");
    assert!(part == whole[numbers], "a range differs from the same corners of the whole");
}

#[test]
fn random_meshes_and_ranges() {
    let mut accepted = 0;
    let mut corners = 0;
    let mut largest = [0; 4];
    each_case(1_500, 1, |_, random| {
        let tables = random_tables(random);
        let (links, output, misses) = match whole(&tables, random) {
            Some(built) => built,
            None => return,
        };
        accepted += 1;
        corners += links.len();
        for (all, miss) in largest.iter_mut().zip(misses) {
            *all = miss.max(*all);
        }
        for _ in 0..2 {
            let first = random.below(links.len());
            let count = 1 + random.below(links.len() - first);
            range(&tables, &links, &output, first, count, random);
            range(&tables, &links, &output, first, 1, random);
        }
        let bytes = encode(lists(&tables), version(&tables, random));
        let read = decode(&bytes, bytes.len() as u64, ENOUGH, random).expect("the file of an accepted mesh");
        assert!(read == tables, "the file of a mesh reads otherwise");
        survey(&bytes, bytes.len() as u64, [NUMBERS; 2], random).expect("the file of an accepted mesh");
    });
    let ticks = largest.map(|miss| miss as f64 / (1u64 << 30) as f64);
    println!("accepted {accepted} meshes of {corners} corners; largest misses {ticks:.3?} of 13");
    assert!(accepted > 0);
}

#[test]
fn families_with_all_kinds_of_coordinates() {
    let mut random = Random::new(2);
    let mut solids = Vec::new();
    for n in 3..=16 {
        for solid in [Solid::prism(n), Solid::antiprism(n), Solid::pyramid(n), Solid::bipyramid(n)] {
            solids.push(solid.dual());
            solids.push(solid.rectified());
            solids.push(solid.expanded());
            solids.push(solid);
        }
        solids.push(Solid::prism(n).dual().rectified());
        solids.push(Solid::torus(3, n));
        solids.push(Solid::torus(n, n).dual());
    }
    for n in 3..=8 {
        solids.push(Solid::prism(n).truncated());
        solids.push(Solid::antiprism(n).truncated());
        solids.push(Solid::prism(n).stellated());
        solids.push(Solid::torus(n, 5).truncated().with(Solid::torus(4, n).stellated()));
    }
    for (number, solid) in solids.iter().enumerate() {
        assert!(whole(&Tables::of(solid), &mut random).is_some(), "solid {number} is refused");
        for (at, places) in Places::ALL.into_iter().enumerate() {
            let tables = Tables::relabelled(solid, places, &mut random);
            assert!(whole(&tables, &mut random).is_some(), "solid {number} is refused with {places:?}");
            // another kind of sharpness with each solid, so that every pair of kinds occurs
            let sharpness = Sharpness::ALL[(number + at) % Sharpness::ALL.len()];
            let tables = tables.sharpened(sharpness, &mut random);
            assert!(whole(&tables, &mut random).is_some(), "solid {number} is refused with {places:?}, {sharpness:?}");
        }
    }
}

/// Meshes at the limits: 8,192 corners, 4,096 faces, 2,048 vertices.
#[test]
fn largest_meshes() {
    let mut random = Random::new(3);
    let prisms = (1..85).fold(Solid::prism(12), |all, _| all.with(Solid::prism(12)));
    let rings = (1..64).fold(Solid::prism(16), |all, _| all.with(Solid::prism(16)));
    let tips = (1..85).fold(Solid::bipyramid(16), |all, _| all.with(Solid::bipyramid(16)));
    let tetrahedra = (1..512).fold(Solid::tetrahedron(), |all, _| all.with(Solid::tetrahedron()));
    let irregular = Solid::torus(32, 40).roughened(&mut random, 3_000, 8_000);
    let meshes = [
        (Solid::torus(32, 64), 8_192),
        (Solid::torus(3, 682), 8_184),
        (Solid::torus(16, 32).stellated(), 6_144),
        (tetrahedra, 6_144),
        (prisms, 6_120),
        (rings, 6_144),
        (tips, 8_160),
        (irregular, 0),
    ];
    for (number, (solid, corners)) in meshes.iter().enumerate() {
        let kinds = [(Places::Anywhere, Sharpness::Plain), (Places::Extreme, Sharpness::Random)];
        for (places, sharpness) in kinds {
            let tables = Tables::relabelled(solid, places, &mut random).sharpened(sharpness, &mut random);
            assert!(*corners == 0 || tables.corners.len() == *corners);
            let (links, output, _) = whole(&tables, &mut random).unwrap_or_else(|| panic!("mesh {number} is refused"));
            let end = links.len();
            for threads in 1..=5 {
                let together = build_all(mesh(&tables), &links, NonZeroUsize::new(threads)).expect("an accepted mesh");
                assert!(together == output, "mesh {number} differs on {threads} threads");
            }
            for (first, count) in [(0, 1), (end - 1, 1), (end / 2 - 32, 64), (1, end - 1), (0, end - 1)] {
                range(&tables, &links, &output, first, count, &mut random);
            }
        }
    }
}

/// L5: faces and vertices of 13 to 16 pass, and their borders are measured; 17 is 5 for a face and 12 for a vertex.
#[test]
fn sixteen_sides() {
    let mut random = Random::new(9);
    for n in 13..=16 {
        let mut largest = [0; 4];
        let solids = [Solid::prism(n), Solid::antiprism(n), Solid::pyramid(n), Solid::bipyramid(n)];
        for solid in solids.iter().chain(&solids.each_ref().map(|solid| solid.dual())) {
            for round in 0..20 {
                let places = Places::ALL[round % Places::ALL.len()];
                let sharpness = Sharpness::ALL[round / 2 % Sharpness::ALL.len()];
                let tables = Tables::relabelled(solid, places, &mut random).sharpened(sharpness, &mut random);
                let (_, _, misses) = whole(&tables, &mut random).unwrap_or_else(|| panic!("{n} is refused"));
                for (all, miss) in largest.iter_mut().zip(misses) {
                    *all = miss.max(*all);
                }
            }
        }
        let ticks = largest.map(|miss| miss as f64 / (1u64 << 30) as f64);
        println!("{n} sides and corners: largest misses {ticks:.3?} of 13");
    }
    let mut refused = |solid: &Solid| {
        let tables = Tables::of(solid);
        link(&tables, tables.corners.len(), &mut random).expect_err("seventeen")
    };
    for solid in [Solid::prism(17), Solid::antiprism(17), Solid::pyramid(17), Solid::bipyramid(17).dual()] {
        let face = solid.faces.iter().position(|face| face.len() == 17).expect("a face of 17");
        assert_eq!(refused(&solid), Refusal { number: 5, place: face as u64 });
    }
    for solid in [Solid::bipyramid(17), Solid::prism(17).dual()] {
        let corners = |point: usize| solid.faces.iter().filter(|face| face.contains(&point)).count();
        let vertex = (0..solid.points.len()).find(|&point| corners(point) == 17).expect("a vertex of 17");
        assert_eq!(refused(&solid), Refusal { number: 12, place: vertex as u64 });
    }
}

/// L5: 4,096 faces of 16 sides are more than any corner list holds: 6 with the sum, unless that list is too long itself.
#[test]
fn the_largest_sum_of_side_counts() {
    let mut random = Random::new(10);
    for (corners, number, place) in [(1, 6, 65_536), (8_192, 6, 65_536), (8_193, 4, 0), (65_536, 4, 0)] {
        let tables = Tables::plain(vec![0; 24], vec![16; 4_096], vec![0; corners]);
        assert_eq!(link(&tables, corners, &mut random), Err(Refusal { number, place }));
        let built = build(&tables, &vec![0; corners], 0, 1, NUMBERS_PER_CORNER, &mut random);
        assert_eq!(built, Err(Refusal { number, place }));
        if corners < 65_536 {
            let bytes = encode(lists(&tables), 1);
            let read = decode(&bytes, bytes.len() as u64, ENOUGH, &mut random).expect_err("no mesh");
            assert_eq!((read.number, read.place), (number, place));
            let counted = survey(&bytes, bytes.len() as u64, [NUMBERS; 2], &mut random).expect_err("no mesh");
            assert_eq!((counted.number, counted.place), (number, place));
        }
    }
}

/// Each fault of 4 to 13, 27 and 28 alone, and mixed with others.
#[test]
fn damaged_meshes() {
    let mut seen = [0; 29];
    each_case(3_000, 4, |case, random| {
        let mut tables = random_tables(random);
        let sound_corners = tables.corners.len();
        damage(&mut tables, DAMAGES[case as usize % DAMAGES.len()], random);
        if random.once_in(3) {
            damage(&mut tables, *random.pick(&DAMAGES), random);
        }
        let corners = tables.corners.len();
        let length = *random.pick(&[corners, corners, sound_corners, corners + 1, 0]);
        if let Err(refusal) = link(&tables, length, random) {
            seen[refusal.number as usize] += 1;
        }
        // building is refused for the same reason, whatever else it is given
        let links: Vec<u16> = (0..length).map(|_| random.bits() as u16).collect();
        let outputs = 123 * random.below(4);
        let _ = build(&tables, &links, random.below(corners + 2), random.below(4), outputs, random);
        let bytes = encode(lists(&tables), version(&tables, random));
        let _ = decode(&bytes, bytes.len() as u64, ENOUGH, random);
    });
    let numbers = || DAMAGES.into_iter().chain([14]).map(|number| seen[number as usize]);
    println!("refused by linking, {DAMAGES:?} and 14: {:?}", numbers().collect::<Vec<_>>());
    assert!(std::env::var_os("MAHUNOPI_CASE").is_some() || numbers().all(|n| n > 0), "{seen:?}");
}

/// 14 to 17: wrong lengths, links and ranges of sound meshes.
#[test]
fn wrong_lengths_links_and_ranges() {
    let mut seen = [0; 18];
    each_case(1_500, 5, |_, random| {
        let tables = random_tables(random);
        let corners = tables.corners.len();
        let mut links = match link(&tables, corners, random) {
            Ok(links) => links,
            Err(_) => return,
        };
        let _ = link(&tables, *random.pick(&[0, 1, corners - 1, corners + 1, 2 * corners]), random);
        match random.below(8) {
            0 => drop(links.pop()),
            1 => links.push(0),
            2 => links.clear(),
            3 | 4 => {
                for _ in 0..1 + random.below(3) {
                    let at = random.below(corners);
                    links[at] = *random.pick(&[links[at] ^ 1, links[at].wrapping_add(1), corners as u16, u16::MAX, 0]);
                }
            }
            5 => {
                // the inverse table: every entry is a corner of the right vertex
                let forward = links.clone();
                for (corner, &linked) in forward.iter().enumerate() {
                    links[usize::from(linked)] = corner as u16;
                }
            }
            _ => {}
        }
        let first = *random.pick(&[0, 1, corners / 2, corners - 1, corners, corners + 1, usize::MAX, 1 << 32]);
        let count = *random.pick(&[0, 1, 2, 64, corners, corners - 1, corners + 1, usize::MAX, 1 << 32]);
        let right = if count <= corners { 123 * count } else { 123 };
        let length = *random.pick(&[right, right, right, right.saturating_sub(1), right + 1, 0, right + 123]);
        if let Err(refusal) = build(&tables, &links, first, count, length, random) {
            seen[refusal.number as usize] += 1;
        }
    });
    println!("refused by building, 14 to 17: {:?}", &seen[14..]);
    assert!(std::env::var_os("MAHUNOPI_CASE").is_some() || seen[14..].iter().all(|&n| n > 0), "{seen:?}");
}

/// 1 to 3 and the rest: files with wrong headers, lengths and bytes, and lent lists of every size.
#[test]
fn damaged_files() {
    let mut seen = [0; 256];
    each_case(3_000, 6, |_, random| {
        let mut tables = random_tables(random);
        if random.once_in(4) {
            damage(&mut tables, *random.pick(&DAMAGES), random);
        }
        let mut bytes = encode(lists(&tables), version(&tables, random));
        let mut spaces = ENOUGH;
        let sound = bytes.len();
        match random.below(10) {
            0 => bytes.truncate(random.below(14)),
            1 => bytes[random.below(5)] ^= 1 << random.below(8),
            2 => bytes[5 + random.below(6)] ^= 1 << random.below(8),
            3 => bytes.truncate(random.below(sound)),
            4 => bytes.extend((0..1 + random.below(3)).map(|_| 0)),
            5 => {
                for _ in 0..1 + random.below(3) {
                    bytes[random.below(sound)] = random.bits() as u8;
                }
            }
            6 | 7 => {
                // the lengths of the lists, or one entry more or less
                let corners = tables.corners.len();
                let asked = [tables.coordinates.len(), tables.sides.len(), corners, 2 * corners];
                spaces = asked.map(|asked| *random.pick(&[asked, asked, asked, asked + 1, asked.saturating_sub(1), 0]));
            }
            // the other version, with its own length or that of the first
            8 => {
                let other = 3 - bytes[3];
                bytes[3] = other;
                if random.once_in(2) {
                    bytes = encode(lists(&tables), usize::from(other));
                }
            }
            _ => {}
        }
        let held = bytes.len() as u64;
        let length = match random.below(24) {
            0 => held + 1,
            1 => held.saturating_sub(1),
            2 => held + (1 << 32),
            3 => u64::MAX,
            4 => random.below(14) as u64,
            5 => sound as u64,
            _ => held,
        };
        let spaces_with = [NUMBERS; 2].map(|room| *random.pick(&[room, room, room, room, 0, room - 1, room + 1, 40]));
        let _ = survey(&bytes, length, spaces_with, random);
        let answer = decode(&bytes, length, spaces, random);
        seen[answer.map_or_else(|refusal| refusal.number as usize, |_| 0)] += 1;
    });
    let [sharpness, short] = [28, LENT_TOO_SHORT].map(|number| seen[number as usize]);
    println!("read {}, refused by 1 to 13: {:?}, by 28: {sharpness}, too short {short}", seen[0], &seen[1..14]);
    let all = seen[..14].iter().all(|&n| n > 0) && sharpness > 0 && short > 0;
    assert!(std::env::var_os("MAHUNOPI_CASE").is_some() || all, "{:?}, {sharpness}, {short}", &seen[..14]);
}

/// Files whose counts ask for more bytes than any buffer: with the length that 3 asks they are 4.
#[test]
fn files_beyond_every_limit() {
    let mut random = Random::new(7);
    for counts in [[65_535u16; 3], [2_049, 1, 1], [1, 4_097, 1], [1, 1, 8_193], [0, 1, 1], [1, 0, 1], [1, 1, 0], [0; 3]]
    {
        for (version, per_corner) in [(1, 2), (2, 4)] {
            let mut bytes = b"DMS".to_vec();
            bytes.extend([version, 0]);
            bytes.extend(counts.iter().flat_map(|count| count.to_le_bytes()));
            let [vertices, faces, corners] = counts.map(u64::from);
            let asked = 11 + 12 * vertices + faces + per_corner * corners;
            for (length, number) in [(asked, 4), (asked + 1, 3), (asked.max(12) - 1, if asked == 11 { 4 } else { 3 })] {
                let refusal = decode(&bytes, length, ENOUGH, &mut random).expect_err("counts beyond the limits");
                assert_eq!((refusal.number, refusal.place), (number, 0), "{counts:?}, {version}, length {length}");
            }
        }
    }
}

/// The sample meshes, from their files to their control points.
#[test]
fn sample_meshes() {
    let mut random = Random::new(8);
    let folder = concat!(env!("CARGO_MANIFEST_DIR"), "/../../meshes");
    let (mut accepted, mut refused) = (0, 0);
    for file in std::fs::read_dir(folder).expect("the folder of samples") {
        let path = file.expect("a file").path();
        if path.extension().map_or(true, |extension| extension != "dms") {
            continue;
        }
        let bytes = std::fs::read(&path).expect("the bytes");
        match decode(&bytes, bytes.len() as u64, ENOUGH, &mut random) {
            Ok(tables) => {
                assert!(whole(&tables, &mut random).is_some());
                accepted += 1;
            }
            Err(_) => refused += 1,
        }
    }
    assert_eq!((accepted, refused), (6, 1));
}
