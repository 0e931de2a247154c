//! The whole surface as one closed mesh of triangles, each corner's quad-net at a level of its own; and the tangents at
//! its points.
//!
//! A net's ends E0, E1, E2, E3 lie round it as the mesh's faces run; side s is gone along from end s to the next. Row 0
//! of a side lies on the border and has the larger of the two nets' levels as its parts; row k has the net's level less
//! k. A point that several nets or sides share has one name, by which they find its number.

use std::collections::HashMap;

use crate::check::{check_mesh, Order};
use crate::sampling::{derivatives, point};
use crate::surface::{nets_and_output, NEIGHBOURS_SIDE};
use crate::{refuse, Lists, Refusal, LENT_TOO_SHORT, NUMBERS_PER_CORNER};

/// The largest level.
pub const MOST_PARTS: usize = 16;

/// A point of the mesh, whichever net it is seen from.
#[derive(Clone, Copy, Debug, PartialEq, Eq, Hash)]
enum Name {
    Vertex(u16),
    /// The edge that leaves this corner, the lower of its two.
    Edge(usize),
    /// The face that begins with this corner.
    Face(usize),
    /// On the border of side 0 or 1 of a corner's net, by the parts from its head.
    Curve(usize, usize, usize),
    /// On a ring of a corner's net, by the places round it from side 0's first on.
    Ring(usize, usize, usize),
}

/// Where a point is sampled: the corner, the side, the weights of head, tail and centre, and their sum.
#[derive(Clone, Copy, Debug)]
struct Sample {
    corner: usize,
    side: usize,
    weights: [usize; 3],
    parts: usize,
}

/// An accepted mesh with its levels.
struct Levelled<'a> {
    lists: Lists<'a>,
    levels: &'a [u8],
    order: Order,
    links: Vec<u16>,
    neighbours: Vec<[usize; 4]>,
}

impl Levelled<'_> {
    fn level(&self, corner: usize) -> usize {
        usize::from(self.levels[corner])
    }

    /// The parts of a border.
    fn parts(&self, corner: usize, side: usize) -> usize {
        self.level(corner).max(self.level(self.neighbours[corner][side]))
    }

    /// The edge that leaves a corner leaves, the other way, the corner before its link.
    fn edge(&self, corner: usize) -> Name {
        let other = self.order.previous(usize::from(self.links[corner]));
        Name::Edge(corner.min(other))
    }

    fn face(&self, corner: usize) -> Name {
        let mut first = corner;
        while self.order.previous(first) < first {
            first = self.order.previous(first);
        }
        Name::Face(first)
    }

    /// End `end` of a corner's net.
    fn end(&self, corner: usize, end: usize) -> Name {
        match end {
            0 => Name::Vertex(self.lists.corners[corner]),
            1 => self.edge(corner),
            2 => self.face(corner),
            _ => self.edge(self.order.previous(corner)),
        }
    }

    /// The point at place j of row k of a side, along the side in turn.
    fn name(&self, corner: usize, side: usize, k: usize, j: usize) -> Name {
        if k > 0 {
            let round = 4 * (self.level(corner) - k);
            let place = side * (self.level(corner) - k) + j;
            return Name::Ring(corner, k, if round == 0 { 0 } else { place % round });
        }
        let parts = self.parts(corner, side);
        if j == 0 {
            return self.end(corner, side);
        }
        if j == parts {
            return self.end(corner, (side + 1) % 4);
        }
        // sides 0 and 2 are gone along from their heads, sides 1 and 3 from their tails
        let from_head = if side % 2 == 0 { j } else { parts - j };
        if side < 2 {
            return Name::Curve(corner, side, from_head);
        }
        Name::Curve(self.neighbours[corner][side], NEIGHBOURS_SIDE[side], from_head)
    }

    fn sample(&self, corner: usize, side: usize, k: usize, j: usize) -> Sample {
        let parts = if k == 0 { self.parts(corner, side) } else { self.level(corner) };
        let rest = parts - k - j;
        let weights = if side % 2 == 0 { [rest, j, k] } else { [j, rest, k] };
        Sample { corner, side, weights, parts }
    }

    /// The points that a corner is the first to name, in their order: the ends of its vertex, its leaving edge and its
    /// face, the inner points of the borders of sides 0 and 1, then ring after ring up to the centre.
    fn named_first(&self, corner: usize, numbers: &HashMap<Name, u32>) -> Vec<(Name, Sample)> {
        let mut own = Vec::new();
        for end in 0..3 {
            let name = self.end(corner, end);
            if !numbers.contains_key(&name) {
                own.push((name, self.sample(corner, end, 0, 0)));
            }
        }
        for side in 0..2 {
            for j in 1..self.parts(corner, side) {
                own.push((self.name(corner, side, 0, j), self.sample(corner, side, 0, j)));
            }
        }
        let level = self.level(corner);
        for k in 1..level {
            for side in 0..4 {
                for j in 0..level - k {
                    own.push((self.name(corner, side, k, j), self.sample(corner, side, k, j)));
                }
            }
        }
        own.push((self.name(corner, 0, level, 0), self.sample(corner, 0, level, 0)));
        own
    }

    /// The triangles of a corner's net: side by side, strip by strip, first those over the lower row's parts, then those
    /// under the upper row's.
    fn triangles(&self, corner: usize) -> Vec<[Name; 3]> {
        let level = self.level(corner);
        let mut all = Vec::new();
        for side in 0..4 {
            for k in 0..level {
                let lower = if k == 0 { self.parts(corner, side) } else { level - k };
                let upper = level - k - 1;
                let over = apexes(side, lower, upper + 1);
                let low = |j: usize| self.name(corner, side, k, j);
                let up = |i: usize| self.name(corner, side, k + 1, i);
                all.extend((0..lower).map(|j| [low(j), low(j + 1), up(over[j])]));
                all.extend((0..upper).map(|i| {
                    let foot = over.iter().position(|&apex| apex > i).expect("an apex for each upper point");
                    [up(i + 1), up(i), low(foot)]
                }));
            }
        }
        all
    }
}

/// For each of a row's parts, along the side in turn, the point of the next row that it is joined to. From the head: the
/// upper points cut the side into as many shares as they are, and the part's middle lies in the point's share.
fn apexes(side: usize, parts: usize, points: usize) -> Vec<usize> {
    let share = |part: usize| {
        let apex = (0..points).find(|&i| (2 * part + 1) * points < 2 * parts * (i + 1));
        apex.expect("a middle lies before the side's end")
    };
    if side % 2 == 0 {
        return (0..parts).map(share).collect();
    }
    (0..parts).map(|j| points - 1 - share(parts - 1 - j)).collect()
}

/// All points, with where each corner's begin, and all triangles, with where each corner's begin.
struct Whole {
    samples: Vec<Sample>,
    points_from: Vec<usize>,
    triangles: Vec<[u32; 3]>,
    triangles_from: Vec<usize>,
    output: Vec<i32>,
}

impl Whole {
    fn of(mesh: &Levelled, output: Vec<i32>) -> Whole {
        let corners = mesh.lists.corners.len();
        let mut numbers = HashMap::new();
        let mut samples = Vec::new();
        let mut points_from = Vec::new();
        for corner in 0..corners {
            points_from.push(samples.len());
            for (name, sample) in mesh.named_first(corner, &numbers) {
                numbers.insert(name, samples.len() as u32);
                samples.push(sample);
            }
        }
        points_from.push(samples.len());
        let mut triangles = Vec::new();
        let mut triangles_from = Vec::new();
        for corner in 0..corners {
            triangles_from.push(triangles.len());
            triangles.extend(mesh.triangles(corner).into_iter().map(|names| names.map(|name| numbers[&name])));
        }
        triangles_from.push(triangles.len());
        Whole { samples, points_from, triangles, triangles_from, output }
    }

    fn net(&self, corner: usize) -> &[i32] {
        &self.output[NUMBERS_PER_CORNER * corner..NUMBERS_PER_CORNER * (corner + 1)]
    }
}

/// Faults 4 to 16, 39 and 40, and the whole surface.
fn check_levels(lists: Lists, links: &[u16], levels: &[u8], first: usize, count: usize) -> Result<Whole, Refusal> {
    let (order, table) = check_mesh(lists)?;
    if links.len() != table.len() {
        return refuse(14, links.len());
    }
    if let Some(corner) = links.iter().zip(&table).position(|(lent, own)| lent != own) {
        return refuse(15, corner);
    }
    if count == 0 || first > table.len() || count > table.len() - first {
        return refuse(16, first);
    }
    if levels.len() != table.len() {
        return refuse(39, levels.len());
    }
    if let Some(corner) = levels.iter().position(|&level| !(1..=MOST_PARTS).contains(&usize::from(level))) {
        return refuse(40, corner);
    }
    let (nets, output) = nets_and_output(lists)?;
    let neighbours = nets.iter().map(|net| net.neighbour_corner).collect();
    Ok(Whole::of(&Levelled { lists, levels, order, links: table, neighbours }, output))
}

/// How many numbers the points of `count` corners from `first` on have, and how many their triangles.
pub fn count_triangles(
    lists: Lists,
    links: &[u16],
    levels: &[u8],
    first: usize,
    count: usize,
) -> Result<(usize, usize), Refusal> {
    let whole = check_levels(lists, links, levels, first, count)?;
    let between = |from: &[usize]| 3 * (from[first + count] - from[first]);
    Ok((between(&whole.points_from), between(&whole.triangles_from)))
}

/// The points of `count` corners from `first` on, in ticks, and their triangles, whose indices count the points of all
/// corners, into the beginnings of two lists; and how many numbers those are.
pub fn triangles(
    lists: Lists,
    links: &[u16],
    levels: &[u8],
    first: usize,
    count: usize,
    points: &mut [i32],
    triangles: &mut [u32],
) -> Result<(usize, usize), Refusal> {
    let whole = check_levels(lists, links, levels, first, count)?;
    let range = |from: &[usize]| from[first]..from[first + count];
    let samples = &whole.samples[range(&whole.points_from)];
    let indices = &whole.triangles[range(&whole.triangles_from)];
    for (space, needed) in [(points.len(), 3 * samples.len()), (triangles.len(), 3 * indices.len())] {
        if space < needed {
            return refuse(LENT_TOO_SHORT, needed);
        }
    }
    for (written, sample) in points.chunks_exact_mut(3).zip(samples) {
        written.copy_from_slice(&point(whole.net(sample.corner), sample.side, sample.weights, sample.parts));
    }
    for (written, three) in triangles.chunks_exact_mut(3).zip(indices) {
        written.copy_from_slice(three);
    }
    Ok((3 * samples.len(), 3 * indices.len()))
}

/// The tangents at the same points: for each the derivative towards its side's tail, then the one towards the centre,
/// times the cube of its parts, from the net that has the point among its own.
pub fn tangents(
    lists: Lists,
    links: &[u16],
    levels: &[u8],
    first: usize,
    count: usize,
) -> Result<Vec<[[i64; 3]; 2]>, Refusal> {
    let whole = check_levels(lists, links, levels, first, count)?;
    let samples = &whole.samples[whole.points_from[first]..whole.points_from[first + count]];
    Ok(samples.iter().map(|sample| derivatives(whole.net(sample.corner), sample.side, sample.weights)).collect())
}
