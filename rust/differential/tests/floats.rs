//! Control points in floats: the proved library against the independent implementation, bit by bit.

use differential::{build, each_case, floats, floats_all, link};
use reference::{FloatPoint, NUMBERS_PER_CORNER};
use shapes::{random_tables, Places, Random, Solid, Tables};

const NEAREST: i32 = 1 << 24;
const LARGEST: i32 = 1 << 27;

/// All 41 points of some quad-nets of a mesh, and how many of them are far.
fn points(tables: &Tables, random: &mut Random) -> (usize, usize) {
    let corners = tables.corners.len();
    let links = match link(tables, corners, random) {
        Ok(links) => links,
        Err(_) => return (0, 0),
    };
    let output = build(tables, &links, 0, corners, NUMBERS_PER_CORNER * corners, random).expect("an accepted mesh");
    let mut far = 0;
    let nets = corners.min(24);
    for _ in 0..nets {
        let first = NUMBERS_PER_CORNER * random.below(corners);
        for point in 0..41 {
            let answer = floats(&output[first..first + NUMBERS_PER_CORNER], point, random);
            far += usize::from(matches!(answer.expect("a net that building writes"), FloatPoint::Far(..)));
        }
    }
    (nets, far)
}

#[test]
fn points_of_random_nets() {
    let mut nets = 0;
    each_case(300, 31, |_, random| nets += points(&random_tables(random), random).0);
    assert!(nets > 0);
}

/// Coordinates at ±65,536, where differences leave ±2^24.
#[test]
fn points_of_extreme_nets() {
    let mut far = 0;
    each_case(60, 32, |case, random| {
        let n = 3 + case as usize % 10;
        for solid in [Solid::prism(n), Solid::antiprism(n), Solid::pyramid(n).dual(), Solid::torus(3, n)] {
            far += points(&Tables::relabelled(&solid, Places::Extreme, random), random).1;
        }
    });
    println!("{far} far points");
    assert!(far > 0);
}

/// Lists of a caller's own: limits, and one beyond them, of every rule; other lengths and point numbers.
#[test]
fn lists_of_any_kind() {
    let limits =
        [0, 1, -1, 4_095, 4_096, -4_095, -4_096, NEAREST, -NEAREST, NEAREST + 1, -NEAREST - 1, LARGEST, -LARGEST];
    let beyond = [LARGEST + 1, -LARGEST - 1, i32::MAX, i32::MIN];
    let mut seen = [0; 5];
    each_case(40_000, 33, |_, random| {
        let length = if random.once_in(8) { *random.pick(&[0, 1, 3, 122, 124, 246]) } else { NUMBERS_PER_CORNER };
        let mut numbers: Vec<i32> = match random.below(3) {
            0 => (0..length).map(|_| *random.pick(&limits)).collect(),
            1 => (0..length).map(|_| random.between(-LARGEST, LARGEST)).collect(),
            _ => (0..length).map(|_| random.between(-NEAREST / 2, NEAREST / 2)).collect(),
        };
        if length > 0 && random.once_in(4) {
            numbers[random.below(length)] = *random.pick(&beyond);
        }
        let point = if random.once_in(4) { *random.pick(&[41, 42, 64, 1 << 32, usize::MAX]) } else { random.below(41) };
        let kind = match floats(&numbers, point, random) {
            Ok(FloatPoint::Near(_)) => 0,
            Ok(FloatPoint::Far(..)) => 1,
            Err(refusal) => refusal.number as usize - 16,
        };
        seen[kind] += 1;
    });
    println!("near, far, 18, 19, 20: {seen:?}");
    assert!(std::env::var_os("MAHUNOPI_CASE").is_some() || seen.iter().all(|&times| times > 0));
}

/// Differences at every multiple of 4,096 that two numbers of a list may have, and one to either side.
#[test]
fn every_boundary_of_4096() {
    let mut random = Random::new(34);
    let mut numbers = [0; NUMBERS_PER_CORNER];
    for multiple in (-65_536..=65_536).map(|k| 4_096 * k) {
        let point = 1 + random.below(40);
        for (axis, difference) in [multiple - 1, multiple, multiple + 1].into_iter().enumerate() {
            let difference = i32::clamp(difference, -2 * LARGEST, 2 * LARGEST);
            // b00 so that the point is within the list's limits too
            numbers[axis] = -difference / 2;
            numbers[3 * point + axis] = difference - difference / 2;
        }
        floats(&numbers, point, &mut random).expect("numbers within the limits");
        // the same on one axis, where another is far
        numbers[1] = -LARGEST;
        numbers[3 * point + 1] = LARGEST;
        let far = floats(&numbers, point, &mut random).expect("numbers within the limits");
        assert!(matches!(far, FloatPoint::Far(..)));
    }
}

/// Lists of none to some quad-nets, with room and without; other lengths; a number beyond the limits anywhere.
#[test]
fn lists_of_nets() {
    let mut seen = [0; 4];
    each_case(4_000, 34, |_, random| {
        let nets = random.below(6);
        let odd = random.once_in(6);
        let length = NUMBERS_PER_CORNER * nets + if odd { 1 + random.below(122) } else { 0 };
        let most = *random.pick(&[3, NEAREST, LARGEST]);
        let mut numbers: Vec<i32> = (0..length).map(|_| random.between(-most, most)).collect();
        if length > 0 && random.once_in(6) {
            let place = random.below(length);
            numbers[place] = *random.pick(&[LARGEST + 1, -LARGEST - 1, i32::MAX, i32::MIN]);
        }
        let room = if random.once_in(6) { random.below(2 * length + 1) } else { 2 * length + random.below(9) };
        match floats_all(&numbers, room, random) {
            Ok(()) => seen[0] += 1,
            Err(refusal) => {
                seen[match refusal.number {
                    18 => 1,
                    19 => 2,
                    _ => 3,
                }] += 1
            }
        }
    });
    assert!(seen.iter().all(|&times| times > 0), "{seen:?}");
}
