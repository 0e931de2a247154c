//! How far the numbers that building writes are from the true surface, which is the construction of 01, with the refined
//! point of L8, with the same table and no rounding at any step (L10). One construction in three readings: whole numbers,
//! where every division rounds; whole numbers over one common denominator, where no division leaves anything over; and
//! the errors of all roundings, each with the weight that it has.

use std::sync::atomic::{AtomicUsize, Ordering};

use crate::check::{check_mesh, Order};
use crate::cosines::{cosine, ONE};
use crate::surface::{round, TICKS};
use crate::wide::Wide;
use crate::{Lists, Refusal, FEWEST, MOST, NUMBERS_PER_CORNER};

/// 25 b points and 16 a points.
const POINTS: usize = NUMBERS_PER_CORNER / 3;

/// All that the construction does with numbers: a sum of multiples, divided.
trait Number: Clone {
    fn mean(terms: &[(i64, &Self)], divisor: i64) -> Self;
}

/// Every division rounds.
impl Number for i64 {
    fn mean(terms: &[(i64, &i64)], divisor: i64) -> i64 {
        round(terms.iter().map(|&(weight, term)| weight * term).sum(), divisor)
    }
}

/// Of all numbers of sides and of corners.
const fn common_multiple() -> i64 {
    let mut multiple = 1;
    let mut m = FEWEST;
    while m <= MOST {
        let (mut a, mut b) = (multiple, m as i64);
        while b != 0 {
            (a, b) = (b, a % b);
        }
        multiple *= m as i64 / a;
        m += 1;
    }
    multiple
}

/// What the sum of a refined point is divided by, beside the side count.
const REFINED: i64 = 512;

/// The common denominator's factors: what a refined point, a face point, N and the points after them are divided by.
const DENOMINATOR: [i64; 4] = [REFINED * common_multiple(), 3 * ONE * common_multiple(), 6, 1 << 35];

/// A fraction, as its multiple by the common denominator.
#[derive(Clone, Copy, Debug, PartialEq, Eq, PartialOrd, Ord)]
pub struct Exact(Wide);

impl Exact {
    pub const ZERO: Exact = Exact(Wide::ZERO);

    /// The denominator has to divide the common one.
    pub fn fraction(numerator: i64, denominator: i64) -> Exact {
        Exact(DENOMINATOR.iter().fold(Wide::of(numerator), |value, &factor| value.times(factor)).over(denominator))
    }

    /// How far a whole number is from it, signs dropped.
    fn distance(self, whole: i64) -> Exact {
        Exact(self.0.minus(Exact::fraction(whole, 1).0).size())
    }

    /// The number of thousandths, rounded up where it is none.
    pub fn thousandths(self) -> i64 {
        DENOMINATOR.iter().fold(self.0.times(1000), |value, &factor| value.over_up(factor)).small()
    }
}

/// No division rounds: one that leaves something over is a panic.
impl Number for Exact {
    fn mean(terms: &[(i64, &Exact)], divisor: i64) -> Exact {
        let sum = terms.iter().fold(Wide::ZERO, |sum, &(weight, term)| sum.plus(term.0.times(weight)));
        Exact(sum.over(divisor))
    }
}

/// The errors that a rounded number carries, by the number of the rounding that made each, and their weights in it.
#[derive(Clone, Debug)]
struct Errors(Vec<(usize, Exact)>);

impl Errors {
    /// A rounding of an exact value: an error of its own, of weight 1.
    fn rounding() -> Errors {
        static LAST: AtomicUsize = AtomicUsize::new(0);
        Errors(vec![(LAST.fetch_add(1, Ordering::Relaxed), Exact::fraction(1, 1))])
    }

    /// What they add up to where each is half a tick, with the sign that does most.
    fn most(&self) -> Exact {
        let sizes = self.0.iter().fold(Wide::ZERO, |sum, (_, weight)| sum.plus(weight.0.size()));
        Exact(sizes.over(2))
    }
}

impl Number for Errors {
    fn mean(terms: &[(i64, &Errors)], divisor: i64) -> Errors {
        let mut all = Vec::new();
        for &(factor, errors) in terms {
            all.extend(errors.0.iter().map(|&(source, weight)| (source, weight.0.times(factor))));
        }
        all.sort_by_key(|&(source, _)| source);
        let mut errors = Errors::rounding();
        while let Some((source, mut weight)) = all.pop() {
            while all.last().map_or(false, |&(other, _)| other == source) {
                weight = weight.plus(all.pop().expect("another part").1);
            }
            errors.0.push((source, Exact(weight.over(divisor))));
        }
        errors
    }
}

/// The refined points of the four refined faces round a corner, each from the corner on.
struct Rings<N> {
    /// As links lead.
    vertex: Vec<N>,
    /// As the face lists them.
    face: Vec<N>,
    /// Corner, next, previous of the link, link.
    leaving: [N; 4],
    /// Corner, previous of the corner across the arriving edge, that corner, previous.
    arriving: [N; 4],
}

/// The centre of a refined face, its points towards the sides that leave and reach its first corner, and C(m, 1).
struct Face<N> {
    centre: N,
    ahead: N,
    behind: N,
    cosine: i64,
}

fn face<N: Number>(points: &[N]) -> Face<N> {
    let m = points.len();
    let towards = |i: usize| {
        let weight = |k: usize| 3 * ONE + 2 * cosine(m, k) + 2 * cosine(m, k + m - 1);
        let terms: Vec<_> = points.iter().enumerate().map(|(j, point)| (weight(j + m - i), point)).collect();
        N::mean(&terms, 3 * m as i64 * ONE)
    };
    let all: Vec<_> = points.iter().map(|point| (1, point)).collect();
    Face { centre: N::mean(&all, m as i64), ahead: towards(0), behind: towards(m - 1), cosine: cosine(m, 1) }
}

/// What belongs to one side of a quad-net.
struct Side<'a, N> {
    h: &'a N,
    t: &'a N,
    x: &'a N,
    y: &'a N,
    n: N,
    c: i64,
}

/// The 41 points of a quad-net, the b rows and then the a rows.
fn control_points<N: Number>(rings: &Rings<N>) -> Vec<N> {
    let [vertex, own, leaving, arriving] =
        [&rings.vertex[..], &rings.face, &rings.leaving, &rings.arriving].map(|points| face(points));
    let here = &rings.leaving[0];
    // head, X; tail, Y; the neighbour's refined point
    let table = [
        (&vertex, &vertex.ahead, &leaving, &leaving.behind, &rings.leaving[3]),
        (&own, &own.ahead, &leaving, &leaving.ahead, &rings.leaving[1]),
        (&own, &own.behind, &arriving, &arriving.behind, &rings.arriving[3]),
        (&vertex, &vertex.behind, &arriving, &arriving.ahead, &rings.arriving[1]),
    ];
    let sides = table.map(|(head, x, tail, y, neighbour)| {
        let n = N::mean(&[(3, x), (3, y), (1, here), (-1, neighbour)], 6);
        Side { h: &head.centre, t: &tail.centre, x, y, n, c: head.cosine }
    });
    // the other side at the head, the other side at the tail, the opposite side
    let at_head = |s: usize| &sides[3 - s];
    let at_tail = |s: usize| &sides[s ^ 1];
    let opposite = |s: usize| &sides[s ^ 2];

    let half = |p: &N, q: &N| N::mean(&[(1, p), (1, q)], 2);
    // along each side from its head: three of the outer row, two of the a row, and the middle of the next row
    let outer: Vec<[N; 3]> = sides
        .iter()
        .map(|s| [N::mean(&[(1, s.h), (3, s.x)], 4), half(s.x, s.y), N::mean(&[(3, s.y), (1, s.t)], 4)])
        .collect();
    let row: Vec<[N; 2]> = (0..4)
        .map(|s| {
            let Side { h, t, x, y, n, c } = &sides[s];
            let second = [(*c, *h), (3 * (ONE - c), *x), (2 * c, *y), (ONE, at_head(s).x), (4 * ONE, n)];
            let third = [(3 * ONE - c, *y), (*c, *t), (4 * ONE, n), (ONE, at_tail(s).y)];
            [N::mean(&second, 8 * ONE), N::mean(&third, 8 * ONE)]
        })
        .collect();
    let middle: Vec<N> = (0..4)
        .map(|s| {
            let inner = [(14, &sides[s].n), (2, &opposite(s).n), (-2, &at_head(s).n), (-2, &at_tail(s).n)];
            let others = [(3, at_head(s).x), (3, at_tail(s).y), (-1, sides[s].h), (-1, sides[s].t)];
            N::mean(&[inner, others].concat(), 16)
        })
        .collect();
    // beside the centre, between the middles of two sides; then the centre
    let beside = |s: usize, r: usize| half(&middle[s], &middle[r]);
    let [a11, a12, a21, a22] = [beside(0, 3), beside(0, 1), beside(3, 2), beside(1, 2)];
    let centre = half(&a12, &a21);

    let [o0, o1, o2, o3] = [&outer[0], &outer[1], &outer[2], &outer[3]];
    let [r0, r1, r2, r3] = [&row[0], &row[1], &row[2], &row[3]];
    let [m0, m1, m2, m3] = [&middle[0], &middle[1], &middle[2], &middle[3]];
    #[rustfmt::skip]
    let grids = [
        [&vertex.centre, &o0[0], &o0[1], &o0[2], &leaving.centre],
        [&o3[0], &half(&r3[0], &r0[0]), m0, &half(&r0[1], &r1[1]), &o1[2]],
        [&o3[1], m3, &centre, m1, &o1[1]],
        [&o3[2], &half(&r3[1], &r2[1]), m2, &half(&r1[0], &r2[0]), &o1[0]],
        [&arriving.centre, &o2[2], &o2[1], &o2[0], &own.centre],
    ].concat().into_iter().chain([
        [&half(&o0[0], &o3[0]), &r0[0], &r0[1], &half(&o0[2], &o1[2])],
        [&r3[0], &a11, &a12, &r1[1]],
        [&r3[1], &a21, &a22, &r1[0]],
        [&half(&o3[2], &o2[2]), &r2[1], &r2[0], &half(&o1[0], &o2[0])],
    ].concat()).cloned().collect();
    grids
}

/// The kinds of control points, by the first of each.
pub const KINDS: [&str; 9] = ["b00", "b01", "b02", "a00", "a01", "b11", "b12", "a11", "b22"];

/// The kind of one of the 41 points: steps from the nearest side and along it from the nearest end.
pub fn kind(point: usize) -> usize {
    let (row, column, last) =
        if point < 25 { (point / 5, point % 5, 4) } else { ((point - 25) / 4, (point - 25) % 4, 3) };
    let row = row.min(last - row);
    let column = column.min(last - column);
    match (last, row.min(column), row.max(column)) {
        (4, 0, 0) => 0,
        (4, 0, 1) => 1,
        (4, 0, _) => 2,
        (3, 0, 0) => 3,
        (3, 0, _) => 4,
        (4, 1, 1) => 5,
        (4, 1, _) => 6,
        (3, ..) => 7,
        _ => 8,
    }
}

/// Of each kind the largest of the values at the 41 points.
fn by_kind(values: impl Iterator<Item = Exact>) -> [Exact; 9] {
    let mut largest = [Exact::ZERO; 9];
    for (point, value) in values.enumerate() {
        let largest = &mut largest[kind(point)];
        *largest = value.max(*largest);
    }
    largest
}

/// The most that the roundings of a net can do to each kind of point, where the vertex has m corners and the face n
/// sides: every rounding is off by half a tick and counts with its weight in the point, once.
pub fn budget(m: usize, n: usize) -> [Exact; 9] {
    let points = |count: usize| (0..count).map(|_| Errors::rounding()).collect::<Vec<_>>();
    let vertex = points(m);
    let mut face = points(n);
    face[0] = vertex[0].clone();
    let [across, beyond] = [Errors::rounding(), Errors::rounding()];
    let leaving = [vertex[0].clone(), face[1].clone(), across, vertex[1].clone()];
    let arriving = [vertex[0].clone(), vertex[m - 1].clone(), beyond, face[n - 1].clone()];
    by_kind(control_points(&Rings { vertex, face, leaving, arriving }).iter().map(Errors::most))
}

/// A mesh without a fault.
struct Surface<'a> {
    lists: Lists<'a>,
    order: Order,
    links: Vec<u16>,
}

impl Surface<'_> {
    fn linked(&self, corner: usize) -> usize {
        usize::from(self.links[corner])
    }

    /// The corners that `step` leads to from a corner, until it is back.
    fn round(&self, first: usize, step: impl Fn(usize) -> usize) -> Vec<usize> {
        let mut corners = vec![first];
        let mut corner = step(first);
        while corner != first {
            corners.push(corner);
            corner = step(corner);
        }
        corners
    }

    /// The refined point of a corner on an axis, as a fraction.
    fn refined(&self, corner: usize, axis: usize) -> (i64, i64) {
        let vertex =
            |c: usize| TICKS * i64::from(self.lists.coordinates[3 * usize::from(self.lists.corners[c]) + axis]);
        let face = self.round(corner, |c| self.order.next(c));
        let n = face.len() as i64;
        let sum: i64 = face.iter().map(|&c| vertex(c)).sum();
        let [u, v] = [0, 1].map(|which| i64::from(self.lists.sharpness[2 * corner + which]));
        let near = (16 - u) * v * vertex(self.order.previous(corner))
            + 16 * (u + v) * vertex(corner)
            + u * (16 - v) * vertex(self.order.next(corner));
        (2 * (16 - u) * (16 - v) * sum + n * near, REFINED * n)
    }

    /// The four rings of a corner, of what each corner has.
    fn rings<N: Number>(&self, corner: usize, points: &[N]) -> Rings<N> {
        let of = |c: usize| points[c].clone();
        let next = self.order.next(corner);
        let previous = self.order.previous(corner);
        let link = self.linked(corner);
        let beyond = self.linked(previous);
        Rings {
            vertex: self.round(corner, |c| self.linked(c)).into_iter().map(of).collect(),
            face: self.round(corner, |c| self.order.next(c)).into_iter().map(of).collect(),
            leaving: [corner, next, self.order.previous(link), link].map(of),
            arriving: [corner, self.order.previous(beyond), beyond, previous].map(of),
        }
    }
}

/// The largest distance of each kind of point from the true surface; `output` holds the control points of all corners
/// of an accepted mesh.
pub fn distances(lists: Lists, output: &[i32]) -> Result<[Exact; 9], Refusal> {
    let (order, links) = check_mesh(lists)?;
    let surface = Surface { lists, order, links };
    let corners = lists.corners.len();
    assert_eq!(output.len(), NUMBERS_PER_CORNER * corners);
    let mut largest = [Exact::ZERO; 9];
    for axis in 0..3 {
        let refined = |corner: usize| {
            let (numerator, denominator) = surface.refined(corner, axis);
            Exact::fraction(numerator, denominator)
        };
        let refined: Vec<Exact> = (0..corners).map(refined).collect();
        for corner in 0..corners {
            let points = control_points(&surface.rings(corner, &refined));
            assert_eq!(points.len(), POINTS);
            let written = |point: usize| i64::from(output[NUMBERS_PER_CORNER * corner + 3 * point + axis]);
            let found = by_kind(points.iter().enumerate().map(|(point, value)| value.distance(written(point))));
            for (all, one) in largest.iter_mut().zip(found) {
                *all = one.max(*all);
            }
        }
    }
    Ok(largest)
}

/// What building writes, by the rounding reading of this construction: it has to be what `build` writes.
pub fn rounded(lists: Lists) -> Result<Vec<i32>, Refusal> {
    let (order, links) = check_mesh(lists)?;
    let surface = Surface { lists, order, links };
    let corners = lists.corners.len();
    let mut output = vec![0; NUMBERS_PER_CORNER * corners];
    for axis in 0..3 {
        let refined = |corner: usize| {
            let (numerator, denominator) = surface.refined(corner, axis);
            round(numerator, denominator)
        };
        let refined: Vec<i64> = (0..corners).map(refined).collect();
        for corner in 0..corners {
            for (point, value) in control_points(&surface.rings(corner, &refined)).into_iter().enumerate() {
                output[NUMBERS_PER_CORNER * corner + 3 * point + axis] = value as i32;
            }
        }
    }
    Ok(output)
}
