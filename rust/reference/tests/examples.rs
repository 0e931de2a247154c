//! The checked examples of 01, with 8 and 8 throughout.

use reference::{
    build, check, conditions, cosine, decode, encode, inspect, link, links_of, nets, patches, round, Lists, Refusal,
};

/// The cube of corners ±3: on z = 3 the corner at (3, 3, 3) leaves to (3, -3, 3).
const COORDINATES: [i32; 24] = [3, 3, 3, 3, -3, 3, -3, -3, 3, -3, 3, 3, 3, 3, -3, 3, -3, -3, -3, -3, -3, -3, 3, -3];
const CORNERS: [u16; 24] = [0, 1, 2, 3, 4, 7, 6, 5, 1, 0, 4, 5, 2, 1, 5, 6, 3, 2, 6, 7, 0, 3, 7, 4];
const CUBE: Lists = Lists { coordinates: &COORDINATES, sides: &[4; 6], corners: &CORNERS, sharpness: &[8; 48] };

fn lists(tables: &shapes::Tables) -> Lists<'_> {
    Lists {
        coordinates: &tables.coordinates,
        sides: &tables.sides,
        corners: &tables.corners,
        sharpness: &tables.sharpness,
    }
}

fn refusal(number: u32, place: u64) -> Result<(), Refusal> {
    Err(Refusal { number, place })
}

#[test]
fn the_cube() {
    let net = nets(CUBE).unwrap()[0];
    assert_eq!(net.refined, [384, 384, 768]);
    assert_eq!(net.head[0], [512, 512, 512]);
    assert_eq!(net.tail[0], [576, 0, 576]);
    assert_eq!(net.head[1], [0, 0, 768]);
    assert_eq!(net.x[0], [555, 427, 555]);
    assert_eq!(net.y[0], [576, 256, 576]);

    let links = links_of(CUBE).unwrap();
    let mut output = vec![0; 24 * 123];
    build(CUBE, &links, 0, 24, &mut output).unwrap();
    let point = |number: usize| &output[3 * number..3 * number + 3];
    assert_eq!(point(0), [512, 512, 512]);
    assert_eq!(point(1), [544, 448, 544]);
    assert_eq!(point(2), [566, 342, 566]);
    assert_eq!(point(3), [576, 192, 576]);
    assert_eq!(point(4), [576, 0, 576]);
    assert_eq!(point(24), [0, 0, 768]);
    assert_eq!(point(25), [496, 496, 544]);
    assert_eq!(point(26), [513, 417, 593]);

    let borders = conditions::borders(CUBE, &output).unwrap();
    assert_eq!((borders.met, borders.split), (48, 0));
    assert!(borders.largest.iter().all(|&miss| miss <= conditions::BOUND));
}

#[test]
fn rounding_and_row_six() {
    assert_eq!(round(1003, 2), 502);
    assert_eq!(round(-1003, 2), -502);
    let half = 1 << 29;
    let row = [2 * half, half, -half, -2 * half, -half, half];
    assert_eq!([0, 1, 2, 3, 4, 5].map(|k| cosine(6, k)), row);
}

#[test]
fn refused_meshes() {
    let flat = Lists { coordinates: &[0; 9], sides: &[3, 3], corners: &[0, 1, 2, 0, 2, 1], sharpness: &[8; 12] };
    assert_eq!(check(flat), refusal(12, 0));
    let touching = Lists {
        coordinates: &[0; 21],
        sides: &[3; 8],
        corners: &[0, 1, 2, 0, 2, 3, 0, 3, 1, 1, 3, 2, 0, 4, 5, 0, 5, 6, 0, 6, 4, 4, 6, 5],
        sharpness: &[8; 48],
    };
    assert_eq!(check(touching), refusal(13, 0));
}

#[test]
fn limits() {
    let with = |number: i32| {
        let mut coordinates = COORDINATES;
        coordinates[10] = number;
        check(Lists { coordinates: &coordinates, ..CUBE })
    };
    assert_eq!(with(65_536), Ok(()));
    assert_eq!(with(-65_536), Ok(()));
    assert_eq!(with(65_537), refusal(7, 10));
    assert_eq!(with(-65_537), refusal(7, 10));

    for n in [12, 13, 16, 17] {
        let tables = shapes::Tables::of(&shapes::Solid::prism(n));
        assert_eq!(check(lists(&tables)), if n <= 16 { Ok(()) } else { refusal(5, 0) });
        let tables = shapes::Tables::of(&shapes::Solid::bipyramid(n));
        let tip = tables.corners.iter().max().map_or(0, |&last| u64::from(last) - 1);
        assert_eq!(check(lists(&tables)), if n <= 16 { Ok(()) } else { refusal(12, tip) });
    }
    let sides = [16; 4_096];
    assert_eq!(check(Lists { sides: &sides, ..CUBE }), refusal(6, 65_536));
    assert_eq!(check(Lists { sides: &sides, corners: &[0; 8_193], ..CUBE }), refusal(4, 0));
    for (vertices, number, place) in [(2_048, 12, 8), (2_049, 4, 0)] {
        let coordinates = vec![0; 3 * vertices];
        let lists = Lists { coordinates: &coordinates, ..CUBE };
        assert_eq!(check(lists), refusal(number, place));
    }
}

#[test]
fn the_file() {
    let bytes = encode(CUBE, 1);
    assert_eq!(bytes.len(), 11 + 12 * 8 + 6 + 2 * 24);
    let length = bytes.len() as u64;
    assert_eq!(inspect(&bytes), "mesh 8 6 24\n3 8 0\n4 0 6\n");
    assert!(patches(&bytes).starts_with("corner 0\n512 512 512\n544 448 544\n"));
    assert_eq!(patches(&bytes).lines().count(), 24 * (1 + 41));
    assert_eq!(inspect(&bytes[1..]), "refused 1 0\n");
    let (mut coordinates, mut sides, mut corners, mut sharpness) = ([9; 25], [9; 7], [9; 25], [9; 49]);
    decode(&bytes, length, &mut coordinates, &mut sides, &mut corners, &mut sharpness).unwrap();
    assert_eq!(coordinates[..24], COORDINATES);
    assert_eq!(corners[..24], CORNERS);
    assert_eq!(sharpness[..48], [8; 48]);
    assert_eq!((coordinates[24], sides[6], corners[24], sharpness[48]), (9, 9, 9, 9));
}

#[test]
fn the_order_of_the_later_numbers() {
    let links = links_of(CUBE).unwrap();
    assert_eq!(link(CUBE, &mut [0; 23]), refusal(14, 23));
    let mut output = [0; 123];
    assert_eq!(build(CUBE, &links[1..], 24, 0, &mut output), refusal(14, 23));
    let mut wrong = links.clone();
    wrong[5] = 65_535;
    assert_eq!(build(CUBE, &wrong, 24, 0, &mut output), refusal(15, 5));
    assert_eq!(build(CUBE, &links, 24, 1, &mut output), refusal(16, 24));
    assert_eq!(build(CUBE, &links, usize::MAX, 1, &mut output), refusal(16, u64::MAX));
    assert_eq!(build(CUBE, &links, 7, 0, &mut output), refusal(16, 7));
    assert_eq!(build(CUBE, &links, 7, 2, &mut output), refusal(17, 123));
}
