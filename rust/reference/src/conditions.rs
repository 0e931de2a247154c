//! The four conditions across a side, measured in whole numbers over 2^30 from the numbers that building wrote.

use crate::cosines::ONE;
use crate::surface::{nets, place, Net, Point, NEIGHBOURS_SIDE};
use crate::{Lists, Refusal, NUMBERS_PER_CORNER};

/// What 01 allows, over 2^30.
pub const BOUND: i64 = 13 * ONE;

/// What the borders of a mesh showed.
#[derive(Clone, Copy, Debug, Default, PartialEq, Eq)]
pub struct Borders {
    /// Borders met, each from one of its sides.
    pub met: usize,
    /// Borders whose two nets differ in a point of the common curve.
    pub split: usize,
    /// The largest miss of each condition in any coordinate, its sign dropped, over 2^30.
    pub largest: [i64; 4],
}

/// The outer b points, or the a points, along a side from its head, among the numbers that building wrote for a corner;
/// `first` is the number of the first point of their grid, which has LENGTH rows.
fn row<const LENGTH: usize>(numbers: &[i32], first: usize, side: usize) -> [Point; LENGTH] {
    std::array::from_fn(|along| {
        let (row, column) = place(side, along, 0, LENGTH - 1);
        let at = 3 * (first + LENGTH * row + column);
        [0, 1, 2].map(|axis| i64::from(numbers[at + axis]))
    })
}

fn outer_of(numbers: &[i32], side: usize) -> [Point; 5] {
    row(numbers, 0, side)
}

fn inner_of(numbers: &[i32], side: usize) -> [Point; 4] {
    row(numbers, 25, side)
}

/// The borders of an accepted mesh; `output` holds the control points of all its corners.
pub fn borders(lists: Lists, output: &[i32]) -> Result<Borders, Refusal> {
    Ok(measure(&nets(lists)?, output))
}

/// The borders of all quad-nets of a mesh.
pub(crate) fn measure(nets: &[Net], output: &[i32]) -> Borders {
    assert_eq!(output.len(), NUMBERS_PER_CORNER * nets.len());
    let numbers = |corner: usize| &output[NUMBERS_PER_CORNER * corner..][..NUMBERS_PER_CORNER];
    let mut found = Borders::default();
    for (corner, net) in nets.iter().enumerate() {
        // a border's other side is 3 or 2 of the neighbour
        for side in [0, 1] {
            let [own, others] = [corner, net.neighbour_corner[side]].map(numbers);
            let other_side = NEIGHBOURS_SIDE[side];
            let outer = outer_of(own, side);
            let [row, other_row] = [inner_of(own, side), inner_of(others, other_side)];
            found.met += 1;
            found.split += usize::from(outer != outer_of(others, other_side));
            for axis in 0..3 {
                let [h, t, x, y] = [net.head, net.tail, net.x, net.y].map(|points| points[side][axis]);
                let c = net.cosine[side];
                let bend = |i: usize| 4 * ONE * (row[i][axis] + other_row[i][axis] - 2 * outer[i][axis]);
                let misses = [
                    bend(0) - 3 * (ONE + c) * (x - h),
                    bend(1) - 2 * (ONE + c) * (y - x) - ONE * (x - h),
                    bend(2) - (ONE + c) * (t - y) - 2 * ONE * (y - x),
                    bend(3) - 3 * ONE * (t - y),
                ];
                for (largest, miss) in found.largest.iter_mut().zip(misses) {
                    *largest = miss.abs().max(*largest);
                }
            }
        }
    }
    found
}
