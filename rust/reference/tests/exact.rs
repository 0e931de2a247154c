//! The exact construction at points worked out by hand, its own reading that rounds, and the budget of its roundings.

use reference::exact::{budget, distances, kind, rounded, KINDS};
use reference::{build, links_of, Lists};

/// The cube of corners ±3 of 01's example.
const COORDINATES: [i32; 24] = [3, 3, 3, 3, -3, 3, -3, -3, 3, -3, 3, 3, 3, 3, -3, 3, -3, -3, -3, -3, -3, -3, 3, -3];
const CORNERS: [u16; 24] = [0, 1, 2, 3, 4, 7, 6, 5, 1, 0, 4, 5, 2, 1, 5, 6, 3, 2, 6, 7, 0, 3, 7, 4];
const CUBE: Lists = Lists { coordinates: &COORDINATES, sides: &[4; 6], corners: &CORNERS, sharpness: &[8; 48] };

/// A pyramid over five sides, flat but for x.
const PYRAMID: Lists = Lists {
    coordinates: &[75, 0, 0, 62, 0, 0, 69, 0, 0, 2, 0, 0, 59, 0, 0, 88, 0, 0],
    sides: &[5, 3, 3, 3, 3, 3],
    corners: &[4, 3, 2, 1, 0, 0, 1, 5, 1, 2, 5, 2, 3, 5, 3, 4, 5, 4, 0, 5],
    sharpness: &[8; 40],
};

fn built(lists: Lists) -> Vec<i32> {
    let links = links_of(lists).unwrap();
    let mut output = vec![0; 123 * lists.corners.len()];
    build(lists, &links, 0, lists.corners.len(), &mut output).unwrap();
    output
}

#[test]
fn the_cube_by_hand() {
    let output = built(CUBE);
    assert_eq!(rounded(CUBE).unwrap(), output);
    let found = distances(CUBE, &output).unwrap().map(|distance| distance.thousandths());
    // the ends are whole; X = 554 2/3 or 426 2/3 is written 555 or 427, and Y is whole
    assert_eq!(found[0], 0);
    // (512 + 3 X) / 4 = 544 or 448
    assert_eq!(found[1], 0);
    // (X + Y) / 2 = 565 1/3 is written 566: the two halves of a tick
    assert_eq!(found[2], 667);
    // a number that is a tick off is found
    let mut wrong = output.clone();
    wrong[3] += 1;
    assert_eq!(distances(CUBE, &wrong).unwrap()[1].thousandths(), 1_000);
}

/// Pairs of u and v of all sorts, another at each corner.
#[test]
fn the_rounding_reading_with_sharpness() {
    for step in 1..17 {
        let sharpness: Vec<u8> = (0..48).map(|position| (position * step % 17) as u8).collect();
        for lists in [Lists { sharpness: &sharpness, ..CUBE }, Lists { sharpness: &sharpness[..40], ..PYRAMID }] {
            let output = built(lists);
            assert_eq!(rounded(lists).unwrap(), output);
            let found = distances(lists, &output).unwrap();
            assert!(found.iter().all(|distance| distance.thousandths() <= 5_000));
        }
    }
}

/// crates/examples has the same corner: a bound of 2 ticks would be false.
#[test]
fn a_point_more_than_two_ticks_off() {
    let found = distances(PYRAMID, &built(PYRAMID)).unwrap();
    assert_eq!(found[8].thousandths(), 2_212);
}

#[test]
fn kinds_of_points() {
    let places = (0..41).map(|point| KINDS[kind(point)]).collect::<Vec<_>>();
    let rows = "b00 b01 b02 b01 b00 b01 b11 b12 b11 b01 b02 b12 b22 b12 b02 b01 b11 b12 b11 b01 b00 b01 b02 b01 b00 \
                a00 a01 a01 a00 a01 a11 a11 a01 a01 a11 a11 a01 a00 a01 a01 a00";
    assert_eq!(places, rows.split_whitespace().collect::<Vec<_>>());
}

#[test]
fn a_budget_by_hand() {
    // a vertex of four corners and a face of four sides: every weight of a face point is positive and they sum to 1
    let most = budget(4, 4).map(|distance| distance.thousandths());
    // a centre: half a tick of its own and half a tick of the refined points
    assert_eq!(most[0], 1_000);
    // and half a tick more of the face points, then of the point
    assert_eq!(most[1], 1_500);
    assert_eq!(most[2], 1_500);
    assert_eq!(most[3], 2_000);
}
