//! L8 by hand: the refined point worked out apart, where it goes with u and v at their ends, 27 and 28 among their
//! neighbours, and the two versions of the file.

use reference::{build, check, decode, encode, inspect, link, links_of, nets, patches, Lists, Refusal};
use shapes::{random_tables, Random, Sharpness, Solid, Tables};

fn lists(tables: &Tables) -> Lists<'_> {
    Lists {
        coordinates: &tables.coordinates,
        sides: &tables.sides,
        corners: &tables.corners,
        sharpness: &tables.sharpness,
    }
}

fn cube() -> Tables {
    Tables::of(&Solid::cube())
}

/// A fraction to the nearest whole number, halves away from zero, by comparing.
fn nearest(numerator: i128, denominator: i128) -> i128 {
    let down = numerator.div_euclid(denominator);
    let twice = 2 * numerator.rem_euclid(denominator);
    if twice > denominator || (twice == denominator && numerator > 0) {
        down + 1
    } else {
        down
    }
}

/// V of a corner on an axis: the first corner of its face, its place in it, its side count, and `V` of P and the place.
fn points(tables: &Tables, v: impl Fn(&[i128], usize, [i128; 2]) -> (i128, i128)) -> Vec<[i64; 3]> {
    let mut refined = Vec::new();
    for (face, &side_count) in tables.sides.iter().enumerate() {
        let first = tables.starts()[face];
        for i in 0..usize::from(side_count) {
            let pair = [0, 1].map(|k| i128::from(tables.sharpness[2 * (first + i) + k]));
            refined.push([0, 1, 2].map(|axis| {
                let vertices: Vec<i128> = tables.corners[first..first + usize::from(side_count)]
                    .iter()
                    .map(|&vertex| 256 * i128::from(tables.coordinates[3 * usize::from(vertex) + axis]))
                    .collect();
                let (numerator, denominator) = v(&vertices, i, pair);
                nearest(numerator, denominator) as i64
            }));
        }
    }
    refined
}

/// P[i - 1], P[i], P[i + 1], Σ and n.
fn around(vertices: &[i128], i: usize) -> [i128; 5] {
    let n = vertices.len();
    let sum: i128 = vertices.iter().sum();
    [vertices[(i + n - 1) % n], vertices[i], vertices[(i + 1) % n], sum, n as i128]
}

#[test]
fn the_formula_of_l8() {
    let mut random = Random::new(81);
    let mut accepted = 0;
    for case in 0..400 {
        let tables = random_tables(&mut random);
        let found = match nets(lists(&tables)) {
            Ok(nets) if nets.len() < 1_000 => nets,
            _ => continue,
        };
        accepted += 1;
        let asked = points(&tables, |vertices, i, [u, v]| {
            let [before, own, after, sum, n] = around(vertices, i);
            let near = (16 - u) * v * before + 16 * (u + v) * own + u * (16 - v) * after;
            (2 * (16 - u) * (16 - v) * sum + n * near, 512 * n)
        });
        assert!(found.iter().map(|net| net.refined).eq(asked), "case {case}");
    }
    assert!(accepted > 100);
}

/// 8 and 8 throughout: document 01's formula, so the numbers of before.
#[test]
fn plain_is_the_formula_of_01() {
    let mut random = Random::new(82);
    let mut accepted = 0;
    for case in 0..400 {
        let tables = random_tables(&mut random).sharpened(Sharpness::Plain, &mut random);
        let found = match nets(lists(&tables)) {
            Ok(nets) if nets.len() < 1_000 => nets,
            _ => continue,
        };
        accepted += 1;
        let asked = points(&tables, |vertices, i, _| {
            let [before, own, after, sum, n] = around(vertices, i);
            (2 * sum + n * (before + 4 * own + after), 8 * n)
        });
        assert!(found.iter().map(|net| net.refined).eq(asked), "case {case}");
    }
    assert!(accepted > 100);
}

/// The corner of the cube at (3, 3, 3) on z = 3, whose next vertex is (3, -3, 3) and whose previous one is (-3, 3, 3).
#[test]
fn the_ends_of_u_and_v() {
    let mut mesh = Tables::plain(
        vec![3, 3, 3, 3, -3, 3, -3, -3, 3, -3, 3, 3, 3, 3, -3, 3, -3, -3, -3, -3, -3, -3, 3, -3],
        vec![4; 6],
        vec![0, 1, 2, 3, 4, 7, 6, 5, 1, 0, 4, 5, 2, 1, 5, 6, 3, 2, 6, 7, 0, 3, 7, 4],
    );
    let mut refined = |u: u8, v: u8| {
        mesh.sharpness[..2].copy_from_slice(&[u, v]);
        nets(lists(&mesh)).unwrap()[0].refined
    };
    assert_eq!(refined(8, 8), [384, 384, 768]);
    // the middle of the face, of the leaving edge, of the arriving edge, and the vertex
    assert_eq!(refined(0, 0), [0, 0, 768]);
    assert_eq!(refined(16, 0), [768, 0, 768]);
    assert_eq!(refined(0, 16), [0, 768, 768]);
    assert_eq!(refined(16, 16), [768, 768, 768]);
    assert_eq!(refined(4, 12), [192, 576, 768]);
    assert_eq!(refined(1, 0), [48, 0, 768]);
}

#[test]
fn the_refusals_among_their_neighbours() {
    let refusal = |number: u32, place: u64| Err(Refusal { number, place });
    for length in [0, 1, 24, 47, 49, 50, 96] {
        let mut mesh = cube();
        mesh.sharpness = vec![17; length];
        assert_eq!(check(lists(&mesh)), refusal(27, length as u64));
        mesh.sides[0] = 2;
        assert_eq!(check(lists(&mesh)), refusal(27, length as u64));
        mesh.coordinates.pop();
        assert_eq!(check(lists(&mesh)), refusal(4, 0));
    }
    for (position, value) in [(0, 17), (23, 255), (47, 128)] {
        let mut mesh = cube();
        mesh.sharpness[position] = value;
        assert_eq!(check(lists(&mesh)), refusal(28, position as u64));
        mesh.sharpness[47] = 18;
        assert_eq!(check(lists(&mesh)), refusal(28, position as u64));
        mesh.corners[1] = mesh.corners[0];
        assert_eq!(check(lists(&mesh)), refusal(28, position as u64));
        mesh.corners[20] = 8;
        assert_eq!(check(lists(&mesh)), refusal(8, 20));
        mesh.coordinates[23] = 65_537;
        assert_eq!(check(lists(&mesh)), refusal(7, 23));
    }
    let mut mesh = cube();
    mesh.sharpness = (0..48).map(|i| 7 * i % 17).collect();
    assert_eq!(check(lists(&mesh)), Ok(()));
    mesh.sharpness.push(0);
    let mut output = [0; 123];
    assert_eq!(link(lists(&mesh), &mut [0; 24]), refusal(27, 49));
    assert_eq!(build(lists(&mesh), &[0; 24], 0, 1, &mut output), refusal(27, 49));
}

#[test]
fn the_two_versions_of_the_file() {
    let mut random = Random::new(83);
    let sharp = cube().sharpened(Sharpness::Random, &mut random);
    let [one, two] = [1, 2].map(|version| encode(lists(&sharp), version));
    assert_eq!((one.len(), two.len()), (161, 161 + 48));
    assert_eq!(two[..3], one[..3]);
    assert_eq!(two[5..161], one[5..]);
    assert_eq!(two[161..], sharp.sharpness);
    let read = |bytes: &[u8]| {
        let (mut coordinates, mut sides, mut corners, mut sharpness) = ([0; 24], [0; 6], [0; 24], [0; 48]);
        let lengths = decode(bytes, bytes.len() as u64, &mut coordinates, &mut sides, &mut corners, &mut sharpness);
        lengths.map(|lengths| {
            assert_eq!((lengths.corners, lengths.sharpness), (24, 48));
            Tables {
                coordinates: coordinates.to_vec(),
                sides: sides.to_vec(),
                corners: corners.to_vec(),
                sharpness: sharpness.to_vec(),
            }
        })
    };
    // version 1 reads as 8 and 8, and gives the points of a version 2 file that says so
    assert_eq!(read(&one).unwrap(), Tables { sharpness: vec![8; 48], ..sharp.clone() });
    assert_eq!(read(&two).unwrap(), sharp);
    assert_eq!(patches(&one), patches(&encode(lists(&cube()), 2)));
    assert_ne!(patches(&one), patches(&two));
    assert_eq!(inspect(&one), inspect(&two));

    // each version has its own length
    let as_version = |bytes: &[u8], version: u8| {
        let mut bytes = bytes.to_vec();
        bytes[3] = version;
        inspect(&bytes)
    };
    assert_eq!(as_version(&two, 1), "refused 3 0\n");
    assert_eq!(as_version(&one, 2), "refused 3 0\n");
    assert_eq!(as_version(&two[..208], 2), "refused 3 0\n");
    for version in [0, 3, 255] {
        assert_eq!(as_version(&two, version), "refused 2 0\n");
        assert_eq!(as_version(&one, version), "refused 2 0\n");
    }
    // 28 of a file: the position in the list, not in the file
    let mut bad = two;
    bad[161 + 13] = 17;
    assert_eq!(inspect(&bad), "refused 28 13\n");
    assert!(links_of(lists(&sharp)).is_ok());
}
