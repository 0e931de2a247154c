//! Samples of a patch: the proved library against the independent implementation, the theorems on what it leaves, and
//! the closed triangles of one level, which have to be the small triangles of the samples.

use std::collections::HashMap;

use differential::{build, each_case, link, lists, mesh, sample, sample_triangle, tangents_at};
use mahunopi::{triangles, Triangles};
use reference::{small_triangles, NUMBERS_PER_CORNER};
use shapes::{random_tables, Places, Random, Solid, Tables};

const LARGEST: i32 = 1 << 27;

/// 123 numbers: at the limits, anywhere within them, or small with many halves.
fn random_net(random: &mut Random) -> Vec<i32> {
    let kind = random.below(3);
    (0..NUMBERS_PER_CORNER)
        .map(|_| match kind {
            0 => *random.pick(&[LARGEST, -LARGEST, LARGEST - 1, 1 - LARGEST, 0]),
            1 => random.between(-LARGEST, LARGEST),
            _ => random.between(-3, 3),
        })
        .collect()
}

fn count(parts: usize) -> usize {
    (parts + 1) * (parts + 2) / 2
}

/// All sides, all N, all i, j, k of some nets, one by one and together; ends, bounds and rays as the theorems have them.
#[test]
fn every_sample() {
    each_case(6, 91, |_, random| {
        let net = random_net(random);
        for parts in 1..=16 {
            let mut triangles = Vec::new();
            for side in 0..4 {
                let more = random.below(7);
                let whole = sample_triangle(&net, side, parts, 3 * count(parts) + more, random)
                    .expect("a net within the limits");
                let mut at = 0;
                for k in 0..=parts {
                    for j in 0..=parts - k {
                        let one =
                            sample(&net, side, [parts - k - j, j, k], parts, random).expect("a net within the limits");
                        assert_eq!(whole[at..at + 3], one, "side {side}, row {k}, place {j} of {parts}");
                        tangents_at(&net, side, [parts - k - j, j, k], parts, random).expect("a net within the limits");
                        assert_eq!(at, 3 * (k * (2 * parts + 3 - k) / 2 + j));
                        at += 3;
                    }
                }
                triangles.push(whole);
            }
            // sides 0 and 3 share the ray from E0, 0 and 1 that from E1, 1 and 2 that from E2, 2 and 3 that from E3
            let at = |side: usize, j: usize, k: usize| &triangles[side][3 * (k * (2 * parts + 3 - k) / 2 + j)..][..3];
            for k in 0..=parts {
                for (s, t) in [(0, 3), (1, 2)] {
                    assert_eq!(at(s, 0, k), at(t, 0, k), "the heads' ray of {s} and {t}");
                }
                for (s, t) in [(0, 1), (2, 3)] {
                    assert_eq!(at(s, parts - k, k), at(t, parts - k, k), "the tails' ray of {s} and {t}");
                }
            }
            for (side, [head, tail]) in [[0, 4], [24, 4], [24, 20], [0, 20]].into_iter().enumerate() {
                assert_eq!(at(side, 0, 0), &net[3 * head..][..3]);
                assert_eq!(at(side, parts, 0), &net[3 * tail..][..3]);
                assert_eq!(at(side, 0, parts), &net[36..39]);
            }
        }
    });
}

/// Every refusal, alone and before the later ones; sums that would wrap; lists that are too short.
#[test]
fn every_refusal() {
    let mut seen = HashMap::new();
    each_case(20_000, 92, |_, random| {
        let mut net = random_net(random);
        if random.once_in(8) {
            net.resize(*random.pick(&[0, 1, 122, 124, 246]), 0);
        }
        if !net.is_empty() && random.once_in(6) {
            let at = random.below(net.len());
            net[at] = *random.pick(&[LARGEST + 1, -LARGEST - 1, i32::MAX, i32::MIN]);
        }
        let side = if random.once_in(6) { *random.pick(&[4, 5, 1 << 32, usize::MAX]) } else { random.below(4) };
        let parts = if random.once_in(6) { *random.pick(&[0, 17, 1 << 32, usize::MAX]) } else { 1 + random.below(16) };
        let most = parts.min(16);
        let k = random.below(most + 1);
        let j = random.below(most - k + 1);
        let mut weights = [most - k - j, j, k];
        match random.below(6) {
            0 => weights[random.below(3)] += 1,
            // sums that are N when they wrap
            1 => weights = [usize::MAX, 1, parts],
            2 => weights = [1 << 63, 1 << 63, parts],
            3 => weights = [usize::MAX, parts, 1],
            _ => {}
        }
        let one = sample(&net, side, weights, parts, random);
        *seen.entry(one.map_or_else(|refusal| refusal.number, |_| 0)).or_insert(0) += 1;
        let length = random.below(3 * count(17) + 1);
        let all = sample_triangle(&net, side, parts, length, random);
        *seen.entry(all.map_or_else(|refusal| 1_000 + refusal.number, |_| 1_000)).or_insert(0) += 1;
    });
    println!("{seen:?}");
    if std::env::var_os("MAHUNOPI_CASE").is_none() {
        for number in [0, 18, 19, 32, 33, 1_000, 1_018, 1_019, 1_032, 1_033, 1_255] {
            assert!(seen.contains_key(&number), "no case of {number}");
        }
    }
}

/// The neighbouring corner of each side.
fn neighbours(tables: &Tables, links: &[u16]) -> Vec<[usize; 4]> {
    let mut next = Vec::new();
    let mut previous = Vec::new();
    for (&start, &sides) in tables.starts().iter().zip(&tables.sides) {
        let sides = usize::from(sides);
        next.extend((0..sides).map(|p| start + (p + 1) % sides));
        previous.extend((0..sides).map(|p| start + (p + sides - 1) % sides));
    }
    (0..links.len())
        .map(|c| {
            let link = |c: usize| usize::from(links[c]);
            [link(c), next[c], previous[c], previous[link(previous[c])]]
        })
        .collect()
}

/// Samples on every border of meshes whose corners are built in ranges, cut anywhere, are the same on both sides.
#[test]
fn borders_close() {
    let mut borders = 0;
    each_case(40, 93, |_, random| {
        let tables = random_tables(random);
        let corners = tables.corners.len();
        let links = match link(&tables, corners, random) {
            Ok(links) => links,
            Err(_) => return,
        };
        // each corner's net from a call of its own range
        let mut nets = Vec::new();
        while nets.len() < corners {
            let first = nets.len();
            let count = 1 + random.below((corners - first).min(40));
            let output =
                build(&tables, &links, first, count, NUMBERS_PER_CORNER * count, random).expect("an accepted mesh");
            nets.extend(output.chunks(NUMBERS_PER_CORNER).map(<[i32]>::to_vec));
        }
        let parts = 1 + random.below(16);
        for (c, beside) in neighbours(&tables, &links).iter().enumerate() {
            for (side, across) in [3, 2, 1, 0].into_iter().enumerate() {
                let j = random.below(parts + 1);
                let here = sample(&nets[c], side, [parts - j, j, 0], parts, random);
                let there = sample(&nets[beside[side]], across, [parts - j, j, 0], parts, random);
                assert!(here.is_ok(), "a net that building writes is refused");
                assert_eq!(here, there, "corner {c}, side {side}, {j} of {parts}");
                borders += 1;
            }
        }
    });
    assert!(borders > 0);
}

/// The triangles of one level for all corners are the small triangles of the nets' samples, with their winding.
fn check_level(tables: &Tables, found: &Triangles, parts: usize) {
    let links = reference::links_of(lists(tables)).expect("an accepted mesh");
    let corners = tables.corners.len();
    let mut output = vec![0; NUMBERS_PER_CORNER * corners];
    reference::build(lists(tables), &links, 0, corners, &mut output).expect("an accepted mesh");
    // from its least point on, so that only the winding counts
    let turned = |mut triangle: [[i32; 3]; 3]| {
        let least = (0..3).min_by_key(|&i| (triangle[i], triangle[(i + 1) % 3])).expect("three");
        triangle.rotate_left(least);
        triangle
    };
    let point = |p: u32| [0, 1, 2].map(|axis| found.points[3 * p as usize + axis]);
    let mut expected: Vec<_> =
        output.chunks(NUMBERS_PER_CORNER).flat_map(|net| small_triangles(net, parts)).map(turned).collect();
    let mut found: Vec<_> = found.triangles.chunks(3).map(|t| turned([t[0], t[1], t[2]].map(point))).collect();
    expected.sort_unstable();
    found.sort_unstable();
    assert!(found == expected, "other triangles");
}

#[test]
fn one_level_is_the_samples() {
    each_case(30, 94, |case, random| {
        let tables = random_tables(random);
        let Ok(links) = reference::links_of(lists(&tables)) else { return };
        let parts = 1 + case as usize % 16;
        let levels = vec![parts as u8; tables.corners.len()];
        let found = triangles(mesh(&tables), &links, &levels).expect("an accepted mesh");
        check_level(&tables, &found, parts);
    });
}

/// The largest mesh.
#[test]
fn the_largest_mesh_at_one_level() {
    let tables = Tables::relabelled(&Solid::torus(32, 64), Places::Extreme, &mut Random::new(95));
    let links = reference::links_of(lists(&tables)).expect("an accepted mesh");
    let found = triangles(mesh(&tables), &links, &[4; 8_192]).expect("an accepted mesh");
    assert_eq!(found.triangles.len(), 3 * 8_192 * 4 * 16);
    check_level(&tables, &found, 4);
}
