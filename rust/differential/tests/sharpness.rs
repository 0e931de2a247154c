//! L8: sharpness of every kind against the independent implementation, 27 and 28 among their neighbours in every call
//! that takes the lists, and files of both versions.

use differential::{build, decode, each_case, irregular, link, lists, mesh, survey};
use reference::conditions::{borders, BOUND};
use reference::{encode, Refusal, MOST, NUMBERS_PER_CORNER};
use shapes::{damage, random_tables, Places, Random, Sharpness, Solid, Tables};

/// Spaces that every file fits in.
const ENOUGH: [usize; 4] = [6_144, 4_096, 8_192, 16_384];

fn refusal<T>(number: u32, place: usize) -> Result<T, Refusal> {
    Err(Refusal { number, place: place as u64 })
}

/// Links and builds a mesh whole and measures its borders: the control points and the largest misses.
fn whole(tables: &Tables, random: &mut Random) -> Option<(Vec<i32>, [i64; 4])> {
    let corners = tables.corners.len();
    let links = link(tables, corners, random).ok()?;
    let output = build(tables, &links, 0, corners, NUMBERS_PER_CORNER * corners, random).expect("an accepted mesh");
    let found = borders(lists(tables), &output).expect("an accepted mesh");
    assert_eq!((found.met, found.split), (2 * corners, 0), "a common curve differs between two nets");
    assert!(found.largest.iter().all(|&miss| miss <= BOUND), "a condition is missed: {:?}", found.largest);
    Some((output, found.largest))
}

/// Every kind of sharpness on the same random meshes. The borders keep their bound, and the range is that of the whole.
#[test]
fn every_kind_on_random_meshes() {
    let mut largest = [[0; 4]; Sharpness::ALL.len()];
    let mut moved = 0;
    each_case(250, 81, |_, random| {
        let tables = random_tables(random);
        let mut plain = None;
        for (kind, sharpness) in Sharpness::ALL.into_iter().enumerate() {
            let tables = tables.clone().sharpened(sharpness, random);
            let (output, misses) = match whole(&tables, random) {
                Some(built) => built,
                None => return,
            };
            for (all, miss) in largest[kind].iter_mut().zip(misses) {
                *all = miss.max(*all);
            }
            let links = mahunopi::link(mesh(&tables)).expect("an accepted mesh");
            let first = random.below(links.len());
            let count = 1 + random.below(links.len() - first);
            let numbers = NUMBERS_PER_CORNER * first..NUMBERS_PER_CORNER * (first + count);
            let part = build(&tables, &links, first, count, numbers.len(), random).expect("a range");
            assert!(part == output[numbers], "a range differs from the same corners of the whole");
            match &plain {
                None => plain = Some(output),
                Some(plain) => moved += u32::from(*plain != output),
            }
        }
    });
    for (sharpness, misses) in Sharpness::ALL.into_iter().zip(largest) {
        let ticks = misses.map(|miss| miss as f64 / (1u64 << 30) as f64);
        println!("{sharpness:?}: largest misses {ticks:.3?} of 13");
    }
    assert!(moved > 0);
}

/// Solids with each of the 17 times 17 pairs of u and v throughout.
#[test]
fn every_pair_of_u_and_v() {
    let mut random = Random::new(82);
    for (number, solid) in
        [Solid::cube(), Solid::prism(3), Solid::antiprism(5), Solid::prism(16), Solid::bipyramid(13)].iter().enumerate()
    {
        for u in 0..=16 {
            for v in 0..=16 {
                let mut tables = Tables::relabelled(solid, Places::ALL[(number + usize::from(u + v)) % 6], &mut random);
                tables.sharpness = [u, v].repeat(tables.corners.len());
                assert!(whole(&tables, &mut random).is_some(), "solid {number} is refused with {u} and {v}");
            }
        }
    }
}

/// One corner alone is sharper, by u or by v: each in turn.
#[test]
fn one_corner_at_a_time() {
    let mut random = Random::new(83);
    for solid in [Solid::cube(), Solid::pyramid(5)] {
        let tables = Tables::relabelled(&solid, Places::Shaken, &mut random);
        let (plain, _) = whole(&tables, &mut random).expect("an accepted mesh");
        for position in 0..tables.sharpness.len() {
            let mut tables = tables.clone();
            tables.sharpness[position] = 16;
            let (output, _) = whole(&tables, &mut random).expect("an accepted mesh");
            let corner = position / 2;
            let own = NUMBERS_PER_CORNER * corner..NUMBERS_PER_CORNER * (corner + 1);
            assert!(output[own.clone()] != plain[own], "position {position} moves nothing");
        }
    }
}

/// A version 1 file has the points of a version 2 file with 8 and 8, and of the lists themselves.
#[test]
fn version_1_gives_plain_points() {
    each_case(200, 84, |_, random| {
        let tables = random_tables(random);
        let plain = tables.clone().sharpened(Sharpness::Plain, random);
        if whole(&plain, random).is_none() {
            return;
        }
        for bytes in [encode(lists(&tables), 1), encode(lists(&plain), 1), encode(lists(&plain), 2)] {
            let read = decode(&bytes, bytes.len() as u64, ENOUGH, random).expect("the file of an accepted mesh");
            assert!(read == plain, "a file reads otherwise");
        }
        let bytes = encode(lists(&tables), 2);
        assert!(decode(&bytes, bytes.len() as u64, ENOUGH, random).expect("an accepted mesh") == tables);
    });
}

/// What each call that takes the lists answers, and that all of them answer the same.
fn every_call(tables: &Tables, random: &mut Random) -> Result<(), Refusal> {
    let corners = tables.corners.len();
    let linked = link(tables, corners, random).map(|_| ());
    assert_eq!(irregular(tables, random).map(|_| ()), linked, "the search answers otherwise than linking");
    if linked.is_err() {
        let links = vec![0; corners];
        let built = build(tables, &links, 0, 1, NUMBERS_PER_CORNER, random);
        assert_eq!(built.map(|_| ()), linked, "building answers otherwise than linking");
    }
    linked
}

/// What a file of these lists in version 2 answers.
fn of_file(tables: &Tables, random: &mut Random) -> Result<(), Refusal> {
    let bytes = encode(lists(tables), 2);
    let read = decode(&bytes, bytes.len() as u64, ENOUGH, random).map(|_| ());
    assert_eq!(survey(&bytes, bytes.len() as u64, [MOST + 1; 2], random).map(|_| ()), read);
    read
}

/// Each fault of the order 4, 27, 5, 6, 7, 8, 28, 9 in a cube, at a place of its own.
const ORDER: [(u32, usize); 8] = [(4, 0), (27, 47), (5, 5), (6, 28), (7, 20), (8, 11), (28, 3), (9, 23)];

fn put(tables: &mut Tables, number: u32) {
    match number {
        4 => tables.coordinates.push(0),
        27 => drop(tables.sharpness.pop()),
        5 => tables.sides[5] = 17,
        // two sides more on two faces: a sum of 28 even where 5 is not tried
        6 => tables.sides[..2].fill(6),
        7 => tables.coordinates[20] = -65_537,
        8 => tables.corners[11] = 8,
        28 => tables.sharpness[3] = 17,
        _ => tables.corners[23] = tables.corners[20],
    }
}

#[test]
fn the_order_of_two_faults() {
    let mut random = Random::new(85);
    let cube = Tables::of(&Solid::cube());
    assert_eq!(every_call(&cube, &mut random), Ok(()));
    for (at, &(number, place)) in ORDER.iter().enumerate() {
        let mut tables = cube.clone();
        put(&mut tables, number);
        assert_eq!(every_call(&tables, &mut random), refusal(number, place));
        // with every later one as well, and with the next one alone
        for &(later, _) in &ORDER[at + 1..] {
            let mut both = tables.clone();
            put(&mut both, later);
            assert_eq!(every_call(&both, &mut random), refusal(number, place), "{number} with {later}");
            let all = ORDER[at + 1..].iter().take_while(|&&(other, _)| other != later);
            all.for_each(|&(other, _)| put(&mut both, other));
            assert_eq!(every_call(&both, &mut random), refusal(number, place), "{number} with all to {later}");
        }
    }
}

/// The same of files, where 27 can't occur and a coordinate list is always a multiple of three.
#[test]
fn the_order_of_two_faults_in_files() {
    let mut random = Random::new(86);
    let cube = Tables::of(&Solid::cube());
    assert_eq!(of_file(&cube, &mut random), Ok(()));
    let order = &ORDER[2..];
    for (at, &(number, place)) in order.iter().enumerate() {
        let mut tables = cube.clone();
        put(&mut tables, number);
        assert_eq!(of_file(&tables, &mut random), refusal(number, place));
        for &(later, _) in &order[at + 1..] {
            let mut both = tables.clone();
            put(&mut both, later);
            assert_eq!(of_file(&both, &mut random), refusal(number, place), "{number} with {later}");
        }
    }
    // the lists are longer than any buffer but one entry within the limits, or beyond
    let mut many = cube;
    many.corners.resize(8_193, 0);
    many.sharpness.resize(2 * 8_193, 17);
    assert_eq!(of_file(&many, &mut random), refusal(4, 0));
    many.corners.pop();
    many.sharpness.truncate(2 * 8_192);
    assert_eq!(of_file(&many, &mut random), refusal(6, 24));
}

/// 27's place is the list's length; 28's the first position above 16.
#[test]
fn places_of_27_and_28() {
    each_case(500, 87, |_, random| {
        let mut tables = random_tables(random);
        if link(&tables, tables.corners.len(), random).is_err() {
            return;
        }
        let length = tables.sharpness.len();
        let mut wrong = tables.clone();
        let other = *random.pick(&[0, 1, length / 2, length - 2, length - 1, length + 1, length + 2, 2 * length]);
        // whatever it holds, and sharpness above 16 too
        wrong.sharpness.resize(other, 99);
        assert_eq!(every_call(&wrong, random), refusal(27, other));
        let mut lowest = length;
        for _ in 0..1 + random.below(3) {
            let position = random.below(length);
            tables.sharpness[position] = *random.pick(&[17, 18, 32, 128, 255]);
            lowest = lowest.min(position);
        }
        assert_eq!(every_call(&tables, random), refusal(28, lowest));
        assert_eq!(of_file(&tables, random), refusal(28, lowest));
        // version 1 has no such bytes
        let bytes = encode(lists(&tables), 1);
        decode(&bytes, bytes.len() as u64, ENOUGH, random).expect("a file without sharpness");
    });
}

/// The length that 3 asks depends on the version; 2 is neither 1 nor 2.
#[test]
fn versions_and_lengths() {
    let mut seen = [0; 4];
    each_case(1_000, 88, |_, random| {
        let mut tables = random_tables(random);
        if random.once_in(4) {
            let number = *random.pick(&[7, 8, 28, 9]);
            damage(&mut tables, number, random);
        }
        let corners = tables.corners.len();
        let [one, two] = [1, 2].map(|version| encode(lists(&tables), version));
        assert_eq!(two.len(), one.len() + 2 * corners);
        let mut answer = |bytes: &[u8], random: &mut Random| {
            let read = decode(bytes, bytes.len() as u64, ENOUGH, random).map(|_| ());
            assert_eq!(survey(bytes, bytes.len() as u64, [MOST + 1; 2], random).map(|_| ()), read);
            if let Err(Refusal { number: number @ 1..=3, .. }) = read {
                seen[number as usize] += 1;
            }
            read
        };
        // a version 1 file that carries the bytes, and a version 2 file without them
        let mut carrying = two.clone();
        carrying[3] = 1;
        assert_eq!(answer(&carrying, random), refusal(3, 0));
        let mut lacking = one.clone();
        lacking[3] = 2;
        assert_eq!(answer(&lacking, random), refusal(3, 0));
        for more in [1, 2, corners, 2 * corners - 1] {
            assert_eq!(answer(&two[..two.len() - more], random), refusal(3, 0));
            let mut longer = two.clone();
            longer.resize(two.len() + more, 8);
            assert_eq!(answer(&longer, random), refusal(3, 0));
            let mut half = one.clone();
            half.resize(one.len() + more, 8);
            assert_eq!(answer(&half, random), refusal(3, 0));
        }
        for version in [0u16, 3, 4, 255, 256, 257, 258, 513, 514, 65_535] {
            for mut bytes in [one.clone(), two.clone()] {
                bytes[3..5].copy_from_slice(&version.to_le_bytes());
                assert_eq!(answer(&bytes, random), refusal(2, 0));
            }
        }
    });
    println!("refused by 2 and 3: {:?}", &seen[2..]);
}

/// The fourth lent list, and what is held of a file: less than its length, or more.
#[test]
fn lent_lists_of_sharpness() {
    each_case(300, 89, |_, random| {
        let tables = random_tables(random);
        let corners = tables.corners.len();
        if link(&tables, corners, random).is_err() {
            return;
        }
        let bytes = encode(lists(&tables), 2);
        let length = bytes.len() as u64;
        let asked = [tables.coordinates.len(), tables.sides.len(), corners, 2 * corners];
        for space in [0, corners, 2 * corners - 1] {
            let short = decode(&bytes, length, [asked[0], asked[1], asked[2], space], random);
            assert_eq!(short.map(|_| ()), refusal(255, 2 * corners));
        }
        // an earlier list comes first
        let short = decode(&bytes, length, [asked[0], asked[1], corners - 1, 0], random);
        assert_eq!(short.map(|_| ()), refusal(255, corners));
        for space in [2 * corners, 2 * corners + 1, 16_384] {
            let read = decode(&bytes, length, [asked[0], asked[1], asked[2], space], random);
            assert!(read.expect("room enough") == tables);
        }
        // all lists but not all sharpness is held
        let held = bytes.len() - 1 - random.below(2 * corners);
        assert_eq!(decode(&bytes[..held], length, ENOUGH, random).map(|_| ()), refusal(3, 0));
        let mut longer = bytes.clone();
        longer.extend([99; 7]);
        assert!(decode(&longer, length, ENOUGH, random).expect("bytes beyond its end") == tables);
    });
}
