//! Building: from a corner to the 41 control points of its quad-net, each step as 01 states it, the refined point as L8
//! does.

use crate::check::{check_mesh, Order};
use crate::cosines::{cosine, ONE};
use crate::{refuse, Lists, Refusal, MOST};

/// x, y and z in ticks.
pub type Point = [i64; 3];

/// A tick is 1/256 of a grid step.
pub(crate) const TICKS: i64 = 256;
/// 25 b points and 16 a points of three numbers each.
pub const NUMBERS_PER_CORNER: usize = 3 * (25 + 16);

/// The nearest whole number to a fraction with a positive denominator, halves away from zero: half a denominator is
/// added to the numerator's size, and the division cuts towards zero.
#[inline(always)]
pub fn round(numerator: i64, denominator: i64) -> i64 {
    let half = denominator / 2;
    (numerator + if numerator < 0 { -half } else { half }) / denominator
}

/// `round` of a formula over the three coordinates.
#[inline(always)]
fn each(denominator: i64, numerator: impl Fn(usize) -> i64) -> Point {
    [round(numerator(0), denominator), round(numerator(1), denominator), round(numerator(2), denominator)]
}

/// A mesh without a fault and the refined points of the faces met so far.
struct Surface<'a> {
    lists: Lists<'a>,
    order: Order,
    links: Vec<u16>,
    refined: Vec<Point>,
    known: Vec<bool>,
}

/// The centre of a refined face and its points towards the two sides at one of its corners.
struct Around {
    centre: Point,
    ahead: Point,
    behind: Point,
}

/// Runs `$name::<M>` for the `$m` at hand, so that the compiler sees every divisor.
macro_rules! for_size {
    ($m:expr, $name:ident($($argument:expr),*)) => {
        match $m {
            3 => $name::<3>($($argument),*),
            4 => $name::<4>($($argument),*),
            5 => $name::<5>($($argument),*),
            6 => $name::<6>($($argument),*),
            7 => $name::<7>($($argument),*),
            8 => $name::<8>($($argument),*),
            9 => $name::<9>($($argument),*),
            10 => $name::<10>($($argument),*),
            11 => $name::<11>($($argument),*),
            12 => $name::<12>($($argument),*),
            13 => $name::<13>($($argument),*),
            14 => $name::<14>($($argument),*),
            15 => $name::<15>($($argument),*),
            16 => $name::<16>($($argument),*),
            other => unreachable!("a face or a ring of {other}"),
        }
    };
}

/// The refined points of a face with N vertices, given in ticks, and the sharpness of their corners: u pulls towards the
/// leaving edge, v towards the arriving one.
fn refine<const N: usize>(vertices: &[Point], sharpness: &[u8], refined: &mut [Point]) {
    let vertices: &[Point; N] = vertices.try_into().expect("N vertices");
    let refined: &mut [Point; N] = refined.try_into().expect("N points");
    let n = N as i64;
    let sum = |axis: usize| vertices.iter().map(|p| p[axis]).sum::<i64>();
    let sum = [sum(0), sum(1), sum(2)];
    for (i, (point, pair)) in refined.iter_mut().zip(sharpness.chunks_exact(2)).enumerate() {
        let before = vertices[(i + N - 1) % N];
        let after = vertices[(i + 1) % N];
        let [u, v] = [pair[0], pair[1]].map(i64::from);
        let [to_face, to_before, own, to_after] = [2 * (16 - u) * (16 - v), (16 - u) * v, 16 * (u + v), u * (16 - v)];
        *point = each(512 * n, |x| {
            to_face * sum[x] + n * (to_before * before[x] + own * vertices[i][x] + to_after * after[x])
        });
    }
}

/// The weights towards a side of an M-sided refined face, by the steps from the side's first corner.
struct Weights<const M: usize>;

impl<const M: usize> Weights<M> {
    const TOWARDS: [i64; M] = {
        let mut weights = [0; M];
        let mut k = 0;
        while k < M {
            weights[k] = 3 * ONE + 2 * cosine(M, k) + 2 * cosine(M, k + M - 1);
            k += 1;
        }
        weights
    };
}

/// The centre of an M-sided refined face, and its points towards the sides that leave and reach its first corner.
fn around<const M: usize>(points: &[Point]) -> Around {
    let points: &[Point; M] = points.try_into().expect("M points");
    let m = M as i64;
    let sum = |axis: usize| points.iter().map(|p| p[axis]).sum();
    // towards the side from points[i], where i + shift = M
    let towards = |shift: usize| {
        each(3 * m * ONE, |x| (0..M).map(|j| points[j][x] * Weights::<M>::TOWARDS[(j + shift) % M]).sum())
    };
    Around { centre: each(m, sum), ahead: towards(0), behind: towards(1) }
}

/// What the four sides of a corner's quad-net are made of, by the numbers of the sides.
#[derive(Clone, Copy, Debug)]
pub struct Net {
    /// The corner's refined point.
    pub refined: Point,
    /// The refined point of the neighbouring corner.
    pub neighbour: [Point; 4],
    /// H and T.
    pub head: [Point; 4],
    pub tail: [Point; 4],
    /// X and Y.
    pub x: [Point; 4],
    pub y: [Point; 4],
    /// C(m, 1) of the head's face.
    pub cosine: [i64; 4],
    /// The neighbouring corner; its side is `NEIGHBOURS_SIDE`.
    pub neighbour_corner: [usize; 4],
}

pub const NEIGHBOURS_SIDE: [usize; 4] = [3, 2, 1, 0];
/// The other side at the head, the other side at the tail, and the opposite side.
const OTHER_AT_HEAD: [usize; 4] = [3, 2, 1, 0];
const OTHER_AT_TAIL: [usize; 4] = [1, 0, 3, 2];
const OPPOSITE: [usize; 4] = [2, 3, 0, 1];

impl<'a> Surface<'a> {
    fn new(lists: Lists<'a>, order: Order, links: Vec<u16>) -> Surface<'a> {
        let corners = lists.corners.len();
        Surface { lists, order, links, refined: vec![[0; 3]; corners], known: vec![false; corners] }
    }

    fn linked(&self, corner: usize) -> usize {
        usize::from(self.links[corner])
    }

    /// The refined point of a corner; the first time, those of its whole face.
    #[inline(always)]
    fn refined(&mut self, corner: usize) -> Point {
        if !self.known[corner] {
            self.refine_face(corner);
        }
        self.refined[corner]
    }

    fn refine_face(&mut self, corner: usize) {
        let mut last = corner;
        while self.order.next(last) > last {
            last = self.order.next(last);
        }
        let face = self.order.next(last)..last + 1;
        let mut vertices = [[0; 3]; MOST];
        for (point, &vertex) in vertices.iter_mut().zip(&self.lists.corners[face.clone()]) {
            let at = 3 * usize::from(vertex);
            let grid = &self.lists.coordinates[at..at + 3];
            *point = [TICKS * i64::from(grid[0]), TICKS * i64::from(grid[1]), TICKS * i64::from(grid[2])];
        }
        let n = face.len();
        self.known[face.clone()].fill(true);
        let sharpness = &self.lists.sharpness[2 * face.start..2 * face.end];
        for_size!(n, refine(&vertices[..n], sharpness, &mut self.refined[face]));
    }

    /// The refined face through `first` and the corners that `step` leads to, and its number of sides.
    #[inline(always)]
    fn ring(&mut self, first: usize, step: impl Fn(&Self, usize) -> usize) -> (usize, Around) {
        let mut points = [[0; 3]; MOST];
        let mut m = 0;
        let mut corner = first;
        loop {
            points[m] = self.refined(corner);
            m += 1;
            corner = step(self, corner);
            if corner == first {
                break;
            }
        }
        (m, for_size!(m, around(&points[..m])))
    }

    /// The refined face of an edge, through its four corners in turn.
    #[inline(always)]
    fn edge(&mut self, corners: [usize; 4]) -> Around {
        let [a, b, c, d] = corners;
        around::<4>(&[self.refined(a), self.refined(b), self.refined(c), self.refined(d)])
    }

    fn net(&mut self, corner: usize) -> Net {
        let next = self.order.next(corner);
        let previous = self.order.previous(corner);
        let link = self.linked(corner);
        // the arriving edge is the leaving edge of the previous corner
        let beyond = self.linked(previous);
        let back = self.order.previous(beyond);

        let (m, vertex) = self.ring(corner, |surface, c| surface.linked(c));
        let (n, face) = self.ring(corner, |surface, c| surface.order.next(c));
        let leaving = self.edge([corner, next, self.order.previous(link), link]);
        let arriving = self.edge([corner, back, beyond, previous]);
        Net {
            refined: self.refined(corner),
            neighbour: [self.refined(link), self.refined(next), self.refined(previous), self.refined(back)],
            head: [vertex.centre, face.centre, face.centre, vertex.centre],
            tail: [leaving.centre, leaving.centre, arriving.centre, arriving.centre],
            x: [vertex.ahead, face.ahead, face.behind, vertex.behind],
            y: [leaving.behind, leaving.ahead, arriving.behind, arriving.ahead],
            cosine: [cosine(m, 1), cosine(n, 1), cosine(n, 1), cosine(m, 1)],
            neighbour_corner: [link, next, previous, back],
        }
    }
}

/// Row and column of the point that stands `along` steps from a side's head and `inwards` steps from the side, in a grid
/// whose last row and column are `last`: 4 for b, 3 for a.
#[inline(always)]
pub(crate) const fn place(side: usize, along: usize, inwards: usize, last: usize) -> (usize, usize) {
    match side {
        0 => (inwards, along),
        1 => (last - along, last - inwards),
        2 => (last - inwards, last - along),
        _ => (along, inwards),
    }
}

/// The b points and the a points of a quad-net.
#[inline(always)]
fn control_points(net: &Net) -> ([[Point; 5]; 5], [[Point; 4]; 4]) {
    let Net { refined, neighbour, head, tail, x: xs, y: ys, cosine, .. } = net;
    let mut b = [[[0; 3]; 5]; 5];
    let mut a = [[[0; 3]; 4]; 4];
    let half = |p: Point, q: Point| each(2, |x| p[x] + q[x]);
    let inner: [Point; 4] =
        std::array::from_fn(|s| each(6, |x| 3 * xs[s][x] + 3 * ys[s][x] + refined[x] - neighbour[s][x]));
    for s in 0..4 {
        let [h, t] = [head[s], tail[s]];
        let outer = [h, each(4, |x| h[x] + 3 * xs[s][x]), half(xs[s], ys[s]), each(4, |x| 3 * ys[s][x] + t[x]), t];
        for (along, point) in outer.into_iter().enumerate() {
            let (row, column) = place(s, along, 0, 4);
            b[row][column] = point;
        }
    }
    for s in 0..4 {
        let (h, t, c) = (head[s], tail[s], cosine[s]);
        let other_x = xs[OTHER_AT_HEAD[s]];
        let other_y = ys[OTHER_AT_TAIL[s]];
        let n = inner[s];
        let second = each(1 << 33, |x| {
            c * h[x] + 3 * (ONE - c) * xs[s][x] + 2 * c * ys[s][x] + ONE * other_x[x] + (1 << 32) * n[x]
        });
        let third = each(1 << 33, |x| (3 * ONE - c) * ys[s][x] + c * t[x] + (1 << 32) * n[x] + ONE * other_y[x]);
        for (along, point) in [(1, second), (2, third)] {
            let (row, column) = place(s, along, 0, 3);
            a[row][column] = point;
        }
        let opposite = inner[OPPOSITE[s]];
        let adjoining = [inner[OTHER_AT_HEAD[s]], inner[OTHER_AT_TAIL[s]]];
        let (row, column) = place(s, 2, 1, 4);
        b[row][column] = each(16, |x| {
            14 * n[x] + 2 * (opposite[x] - adjoining[0][x] - adjoining[1][x]) + 3 * (other_x[x] + other_y[x])
                - h[x]
                - t[x]
        });
    }
    a[0][0] = half(b[0][1], b[1][0]);
    a[0][3] = half(b[0][3], b[1][4]);
    a[3][3] = half(b[4][3], b[3][4]);
    a[3][0] = half(b[3][0], b[4][1]);

    b[1][1] = half(a[1][0], a[0][1]);
    b[1][3] = half(a[0][2], a[1][3]);
    b[3][1] = half(a[2][0], a[3][1]);
    b[3][3] = half(a[2][3], a[3][2]);

    a[1][1] = half(b[1][2], b[2][1]);
    a[1][2] = half(b[1][2], b[2][3]);
    a[2][1] = half(b[2][1], b[3][2]);
    a[2][2] = half(b[2][3], b[3][2]);

    b[2][2] = half(a[1][2], a[2][1]);
    (b, a)
}

/// Building: writes the control points of `count` corners from `first` on, or leaves the output as it is and says why.
pub fn build(lists: Lists, links: &[u16], first: usize, count: usize, output: &mut [i32]) -> Result<(), Refusal> {
    let (order, table) = check_mesh(lists)?;
    if links.len() != table.len() {
        return refuse(14, links.len());
    }
    if let Some(corner) = links.iter().zip(&table).position(|(lent, own)| lent != own) {
        return refuse(15, corner);
    }
    if count == 0 || first > table.len() || count > table.len() - first {
        return refuse(16, first);
    }
    if output.len() != NUMBERS_PER_CORNER * count {
        return refuse(17, output.len());
    }
    let mut surface = Surface::new(lists, order, table);
    for (corner, written) in (first..).zip(output.chunks_exact_mut(NUMBERS_PER_CORNER)) {
        write(&surface.net(corner), written);
    }
    Ok(())
}

/// The 123 numbers of a quad-net.
#[inline(always)]
fn write(net: &Net, written: &mut [i32]) {
    let (b, a) = control_points(net);
    let points = b.iter().flatten().chain(a.iter().flatten());
    for (numbers, point) in written.chunks_exact_mut(3).zip(points) {
        for (number, &value) in numbers.iter_mut().zip(point) {
            // no control point reaches 2^25
            *number = value as i32;
        }
    }
}

/// The quad-nets of all corners of an accepted mesh, before their control points.
pub fn nets(lists: Lists) -> Result<Vec<Net>, Refusal> {
    let (order, links) = check_mesh(lists)?;
    let mut surface = Surface::new(lists, order, links);
    Ok((0..lists.corners.len()).map(|corner| surface.net(corner)).collect())
}

/// The quad-nets of all corners of an accepted mesh, and what building writes for them.
pub(crate) fn nets_and_output(lists: Lists) -> Result<(Vec<Net>, Vec<i32>), Refusal> {
    let nets = nets(lists)?;
    let mut output = vec![0; NUMBERS_PER_CORNER * nets.len()];
    for (net, written) in nets.iter().zip(output.chunks_exact_mut(NUMBERS_PER_CORNER)) {
        write(net, written);
    }
    Ok((nets, output))
}
