//! Trying a vertex before moving it: the proved library against the independent implementation, against building on the
//! moved lists, and the corners that a vertex can change against those that it does change.

use differential::{build, each_case, link, preview, touched};
use reference::{Refusal, LARGEST_COORDINATE, LENT_TOO_SHORT, NUMBERS_PER_CORNER, SHARPEST};
use shapes::{damage, random_tables, Places, Random, Solid, Tables, DAMAGES};

const MOST: i32 = LARGEST_COORDINATE;

fn refused(number: u32, place: usize) -> Refusal {
    Refusal { number, place: place as u64 }
}

fn moved(tables: &Tables, vertex: usize, to: [i32; 3]) -> Tables {
    let mut moved = tables.clone();
    moved.coordinates[3 * vertex..3 * vertex + 3].copy_from_slice(&to);
    moved
}

/// A preview of a range of an accepted mesh is building on the moved lists.
#[test]
fn previews_are_building_on_the_moved_lists() {
    let mut previews = 0;
    each_case(1_500, 91, |_, random| {
        let tables = random_tables(random);
        let corners = tables.corners.len();
        let links = match link(&tables, corners, random) {
            Ok(links) => links,
            Err(_) => return,
        };
        for _ in 0..3 {
            let first = random.below(corners);
            let count = 1 + random.below((corners - first).min(200));
            let vertex = random.below(tables.vertices());
            let to = [0; 3].map(|_| random.between(-MOST, MOST));
            let length = NUMBERS_PER_CORNER * count;
            let tried = preview(&tables, &links, first, count, vertex, to, length, random).expect("an accepted mesh");
            let after = moved(&tables, vertex, to);
            assert!(build(&after, &links, first, count, length, random).expect("a moved mesh") == tried);
            previews += 1;
        }
    });
    println!("{previews} previews");
    assert!(std::env::var_os("MAHUNOPI_CASE").is_some() || previews > 0);
}

/// 29 comes before everything else, and its place is the vertex, however large.
#[test]
fn no_such_vertex() {
    let mut random = Random::new(92);
    let cube = Tables::of(&Solid::cube());
    let links = link(&cube, 24, &mut random).unwrap();
    let empty = Tables { coordinates: vec![], sides: vec![], corners: vec![], sharpness: vec![] };
    let far = [1 << 32, 1 << 63, usize::MAX / 3, usize::MAX / 3 + 1, usize::MAX - 1, usize::MAX];
    for vertex in [8, 9, 23, 24, 2_048].into_iter().chain(far) {
        let refusal = Err(refused(29, vertex));
        assert_eq!(preview(&cube, &links, 0, 24, vertex, [0; 3], 24 * 123, &mut random), refusal);
        assert_eq!(touched(&cube, vertex, 24, &mut random), refusal.clone().map(|_: Vec<i32>| vec![]));
        // with every other fault besides
        assert_eq!(preview(&cube, &[], usize::MAX, usize::MAX, vertex, [i32::MAX; 3], 1, &mut random), refusal);
        assert_eq!(touched(&cube, vertex, 3, &mut random).unwrap_err(), refused(29, vertex));
    }
    for vertex in [0, 1].into_iter().chain(far) {
        assert_eq!(preview(&empty, &[], 0, 0, vertex, [0; 3], 0, &mut random), Err(refused(29, vertex)));
        assert_eq!(touched(&empty, vertex, 0, &mut random), Err(refused(29, vertex)));
    }
}

/// 29 looks at the length over three, rounded down; what is left over is 4.
#[test]
fn odd_and_long_lists() {
    let mut random = Random::new(93);
    let cube = Tables::of(&Solid::cube());
    let links = link(&cube, 24, &mut random).unwrap();
    for numbers in [0, 1, 2, 3, 4, 5, 6, 23, 25, 26, 27, 6_143, 6_144, 6_145, 6_146, 6_147, 20_000] {
        let tables = Tables { coordinates: vec![1; numbers], ..cube.clone() };
        for vertex in [0, 1, 7, 8, 2_047, 2_048, 6_000, 7_000] {
            let answer = preview(&tables, &links, 0, 24, vertex, [MOST + 1; 3], 24 * 123, &mut random).unwrap_err();
            assert_eq!(
                touched(&tables, vertex, 24, &mut random).err() == Some(refused(29, vertex)),
                vertex >= numbers / 3
            );
            if vertex >= numbers / 3 {
                assert_eq!(answer, refused(29, vertex));
            } else if numbers % 3 != 0 || numbers > 6_144 {
                assert_eq!(answer, refused(4, 0));
            } else if numbers >= 24 {
                assert_eq!(answer, refused(7, 3 * vertex));
            }
        }
    }
    // five numbers: vertex 0 passes 29
    let five = Tables { coordinates: vec![0; 5], ..cube };
    assert_eq!(preview(&five, &links, 0, 24, 0, [0; 3], 24 * 123, &mut random), Err(refused(4, 0)));
    assert_eq!(preview(&five, &links, 0, 24, 1, [0; 3], 24 * 123, &mut random), Err(refused(29, 1)));
}

/// A bad coordinate in the move is 7 at its position, and one that the move replaces is no fault.
#[test]
fn bad_coordinates() {
    let mut random = Random::new(94);
    let solid = Solid::torus(6, 9);
    let tables = Tables::of(&solid);
    let links = link(&tables, 216, &mut random).unwrap();
    let length = 216 * 123;
    for vertex in [0, 1, 30, 53] {
        for axis in 0..3 {
            for bad in [MOST + 1, -MOST - 1, i32::MAX, i32::MIN] {
                let mut to = [MOST, -MOST, 0];
                to[axis] = bad;
                let at = 3 * vertex + axis;
                assert_eq!(preview(&tables, &links, 0, 216, vertex, to, length, &mut random), Err(refused(7, at)));
                // two bad ones: the lower
                to[2] = bad;
                assert_eq!(preview(&tables, &links, 0, 216, vertex, to, length, &mut random), Err(refused(7, at)));
                // the list's own bad number is replaced, wherever it stands in the vertex
                let mut faulty = tables.clone();
                faulty.coordinates[at] = bad;
                assert_eq!(build(&faulty, &links, 0, 216, length, &mut random), Err(refused(7, at)));
                preview(&faulty, &links, 0, 216, vertex, [MOST, 3, -MOST], length, &mut random)
                    .expect("it is replaced");
                // and not in another vertex
                let other = (vertex + 1) % 54;
                let answer = preview(&faulty, &links, 0, 216, other, [0; 3], length, &mut random);
                assert_eq!(answer, Err(refused(7, at)));
                let answer = preview(&faulty, &links, 0, 216, other, [bad; 3], length, &mut random);
                assert_eq!(answer, Err(refused(7, at.min(3 * other))));
            }
        }
    }
}

/// Every refusal of building, alone and mixed with others, with a vertex that there is.
#[test]
fn every_refusal() {
    let mut seen = [0; 30];
    let mut marks_seen = [0; 256];
    each_case(4_000, 95, |case, random| {
        let mut tables = random_tables(random);
        let corners = tables.corners.len();
        let mut links = link(&tables, corners, random).unwrap_or_else(|_| vec![0; corners]);
        if random.once_in(2) {
            damage(&mut tables, DAMAGES[case as usize % DAMAGES.len()], random);
        }
        let corners = tables.corners.len().max(1);
        let mut first = random.below(corners);
        let mut count = 1 + random.below((corners - first).min(100));
        let mut length = NUMBERS_PER_CORNER * count;
        let mut lent = tables.corners.len();
        match random.below(12) {
            0 => links.truncate(random.below(links.len() + 1)),
            1 if !links.is_empty() => *links.last_mut().unwrap() ^= 1,
            2 => first = usize::MAX - random.below(3),
            3 => count = if random.once_in(2) { 0 } else { usize::MAX },
            4 => length = random.below(500),
            5 => lent = random.below(20),
            _ => {}
        }
        let vertex = random.below(tables.vertices() + 1);
        let most = if random.once_in(3) { MOST + 20_000 } else { MOST };
        let to = [0; 3].map(|_| random.between(-most, most));
        if let Err(refusal) = preview(&tables, &links, first, count, vertex, to, length, random) {
            seen[refusal.number as usize] += 1;
        }
        if let Err(refusal) = touched(&tables, vertex, lent, random) {
            marks_seen[refusal.number as usize] += 1;
        }
    });
    println!("refused by 4 to 17 and 27 to 29: {:?} and {:?}", &seen[4..18], &seen[27..]);
    if std::env::var_os("MAHUNOPI_CASE").is_none() {
        assert!((4..18).chain(27..30).all(|number| seen[number] > 0), "{seen:?}");
        assert!((4..14).chain([27, 28, 29, 255]).all(|number| marks_seen[number] > 0), "{marks_seen:?}");
    }
}

/// The marked corners are those that a far move changes, and no other, where no sharpness number is 16. With 16 a refined
/// point gives the other vertices of its face no weight, so a marked corner may keep its numbers; no other loses them.
#[test]
fn what_a_vertex_touches() {
    let mut all = 0;
    let mut marked = 0;
    let mut keep = 0;
    each_case(600, 96, |case, random| {
        let mut tables = random_tables(random);
        let soft = case % 2 == 0;
        if soft {
            tables.sharpness.iter_mut().for_each(|number| *number = (*number).min(SHARPEST - 1));
        }
        let corners = tables.corners.len();
        let links = match link(&tables, corners, random) {
            Ok(links) => links,
            Err(_) => return,
        };
        let length = NUMBERS_PER_CORNER * corners;
        let before = build(&tables, &links, 0, corners, length, random).expect("an accepted mesh");
        for _ in 0..2 {
            let vertex = random.below(tables.vertices());
            let marks = touched(&tables, vertex, corners, random).expect("an accepted mesh");
            let own = &tables.coordinates[3 * vertex..3 * vertex + 3];
            // at least 65,536 steps off on each axis
            let to = [0, 1, 2].map(|axis| if own[axis] > 0 { -MOST } else { MOST });
            let after = preview(&tables, &links, 0, corners, vertex, to, length, random).expect("an accepted mesh");
            for c in 0..corners {
                let numbers = NUMBERS_PER_CORNER * c..NUMBERS_PER_CORNER * (c + 1);
                let changed = before[numbers.clone()] != after[numbers];
                assert!(marks[c] == u8::from(changed) || !soft && !changed, "corner {c}, vertex {vertex}");
                keep += usize::from(marks[c] == 1 && !changed);
            }
            all += corners;
            marked += marks.iter().filter(|&&mark| mark == 1).count();
        }
    });
    println!("{marked} of {all} corners are touched, of which {keep} keep their numbers");
    assert!(std::env::var_os("MAHUNOPI_CASE").is_some() || (0 < marked && marked < all));
}

/// Marks on a large mesh, where few corners are touched, and a lent list of another length.
#[test]
fn marks_of_large_meshes() {
    let mut random = Random::new(97);
    for places in [Places::Own, Places::Anywhere] {
        let tables = Tables::relabelled(&Solid::torus(32, 64), places, &mut random);
        for vertex in [0, 1, 1_000, 2_047] {
            let marks = touched(&tables, vertex, 8_192, &mut random).expect("a torus");
            assert_eq!(marks.iter().filter(|&&mark| mark == 1).count(), 36);
            for length in [0, 1, 8_191, 8_193] {
                assert_eq!(touched(&tables, vertex, length, &mut random), Err(refused(LENT_TOO_SHORT, 8_192)));
            }
        }
        assert_eq!(touched(&tables, 2_048, 8_192, &mut random), Err(refused(29, 2_048)));
    }
    // a pyramid's apex touches every corner, a vertex of its base all too
    let pyramid = Tables::of(&Solid::pyramid(16));
    for vertex in 0..17 {
        assert_eq!(touched(&pyramid, vertex, 64, &mut random).expect("a pyramid"), vec![1; 64]);
    }
}
