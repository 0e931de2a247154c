//! Closed surfaces as lists of faces: families of solids, operators on a whole surface, and changes of one face, edge
//! or vertex that keep the surface closed.

use std::collections::HashMap;

use crate::{Random, MAX_FACES, MAX_VERTICES, MOST};

/// Points, and faces as cycles of point numbers, all listed the same way round.
#[derive(Clone, Debug)]
pub struct Solid {
    pub points: Vec<[i32; 3]>,
    pub faces: Vec<Vec<usize>>,
}

/// The face to the one side of each directed edge.
type Edges = HashMap<(usize, usize), usize>;

/// The radius of the solids, in grid steps.
const RADIUS: f64 = 40_000.0;

fn at_angle(turns: f64, radius: f64, height: f64) -> [i32; 3] {
    let angle = std::f64::consts::TAU * turns;
    [radius * angle.cos(), radius * angle.sin(), height].map(|x| x.round() as i32)
}

fn ring(n: usize, turn: f64, radius: f64, height: f64) -> impl Iterator<Item = [i32; 3]> {
    (0..n).map(move |k| at_angle((k as f64 + turn) / n as f64, radius, height))
}

fn middle(points: impl Iterator<Item = [i32; 3]>) -> [i32; 3] {
    let mut sum = [0i64; 3];
    let mut count = 0;
    for point in points {
        count += 1;
        for axis in 0..3 {
            sum[axis] += i64::from(point[axis]);
        }
    }
    sum.map(|x| (x / count) as i32)
}

/// The edges of a face, as pairs of points.
fn edges_of(face: &[usize]) -> impl Iterator<Item = (usize, usize)> + '_ {
    (0..face.len()).map(|i| (face[i], face[(i + 1) % face.len()]))
}

/// The face turned so that it begins with `point`.
fn from_point(face: &[usize], point: usize) -> Vec<usize> {
    let start = face.iter().position(|&p| p == point).expect("a point of the face");
    let mut turned = face.to_vec();
    turned.rotate_left(start);
    turned
}

impl Solid {
    pub fn tetrahedron() -> Solid {
        Solid::pyramid(3)
    }

    pub fn cube() -> Solid {
        Solid::prism(4)
    }

    pub fn prism(n: usize) -> Solid {
        let points = ring(n, 0.0, RADIUS, -RADIUS / 2.0).chain(ring(n, 0.0, RADIUS, RADIUS / 2.0));
        let mut faces = vec![(0..n).rev().collect(), (n..2 * n).collect()];
        faces.extend((0..n).map(|k| vec![k, (k + 1) % n, n + (k + 1) % n, n + k]));
        Solid { points: points.collect(), faces }
    }

    pub fn antiprism(n: usize) -> Solid {
        let points = ring(n, 0.0, RADIUS, -RADIUS / 2.0).chain(ring(n, 0.5, RADIUS, RADIUS / 2.0));
        let mut faces = vec![(0..n).rev().collect(), (n..2 * n).collect()];
        for k in 0..n {
            faces.push(vec![k, (k + 1) % n, n + k]);
            faces.push(vec![(k + 1) % n, n + (k + 1) % n, n + k]);
        }
        Solid { points: points.collect(), faces }
    }

    pub fn pyramid(n: usize) -> Solid {
        let points = ring(n, 0.0, RADIUS, -RADIUS / 2.0).chain([at_angle(0.0, 0.0, RADIUS)]);
        let mut faces = vec![(0..n).rev().collect()];
        faces.extend((0..n).map(|k| vec![k, (k + 1) % n, n]));
        Solid { points: points.collect(), faces }
    }

    pub fn bipyramid(n: usize) -> Solid {
        let tips = [at_angle(0.0, 0.0, -RADIUS), at_angle(0.0, 0.0, RADIUS)];
        let mut faces = Vec::new();
        for k in 0..n {
            faces.push(vec![(k + 1) % n, k, n]);
            faces.push(vec![k, (k + 1) % n, n + 1]);
        }
        Solid { points: ring(n, 0.0, RADIUS, 0.0).chain(tips).collect(), faces }
    }

    /// A torus of p times q four-sided faces; both at least 3.
    pub fn torus(p: usize, q: usize) -> Solid {
        let mut points = Vec::new();
        let mut faces = Vec::new();
        for i in 0..p {
            let tube = std::f64::consts::TAU * i as f64 / p as f64;
            points.extend(ring(q, 0.0, RADIUS * (1.0 + 0.4 * tube.cos()), RADIUS * 0.4 * tube.sin()));
            for j in 0..q {
                let at = |i: usize, j: usize| (i % p) * q + j % q;
                faces.push(vec![at(i, j), at(i, j + 1), at(i + 1, j + 1), at(i + 1, j)]);
            }
        }
        Solid { points, faces }
    }

    fn edges(&self) -> Edges {
        let faces = self.faces.iter().enumerate();
        faces.flat_map(|(number, face)| edges_of(face).map(move |edge| (edge, number))).collect()
    }

    /// The points that the edges of `point` lead to, in link order, and the face that each of these edges leaves along.
    fn star(&self, edges: &Edges, point: usize, first_face: usize) -> Vec<(usize, usize)> {
        let mut star = Vec::new();
        let mut face = first_face;
        loop {
            let target = from_point(&self.faces[face], point)[1];
            star.push((target, face));
            face = edges[&(target, point)];
            if face == first_face {
                return star;
            }
        }
    }

    /// The star of each point.
    fn stars(&self) -> Vec<Vec<(usize, usize)>> {
        let edges = self.edges();
        let mut some_face = vec![usize::MAX; self.points.len()];
        for (number, face) in self.faces.iter().enumerate() {
            for &point in face {
                some_face[point] = number;
            }
        }
        let stars = some_face.iter().enumerate();
        stars.map(|(point, &face)| self.star(&edges, point, face)).collect()
    }

    fn centre(&self, face: &[usize]) -> [i32; 3] {
        middle(face.iter().map(|&p| self.points[p]))
    }

    /// A point for each face, a face for each point.
    pub fn dual(&self) -> Solid {
        let stars = self.stars();
        Solid {
            points: self.faces.iter().map(|face| self.centre(face)).collect(),
            faces: stars.iter().map(|star| star.iter().map(|&(_, face)| face).collect()).collect(),
        }
    }

    /// Two points on each edge, a face for each face and for each point.
    pub fn truncated(&self) -> Solid {
        self.cut_by(|from, to| {
            let [p, q] = [self.points[from], self.points[to]];
            ((from, to), middle([p, p, q].into_iter()))
        })
    }

    /// A point on each edge, a face for each face and for each point.
    pub fn rectified(&self) -> Solid {
        self.cut_by(|from, to| {
            let points = [self.points[from], self.points[to]];
            ((from.min(to), from.max(to)), middle(points.into_iter()))
        })
    }

    /// The points that `near` gives for the directed edges take the place of the old ones.
    fn cut_by(&self, near: impl Fn(usize, usize) -> ((usize, usize), [i32; 3])) -> Solid {
        let mut numbers = HashMap::new();
        let mut points = Vec::new();
        let mut number = |from: usize, to: usize| {
            let (key, place) = near(from, to);
            *numbers.entry(key).or_insert_with(|| {
                points.push(place);
                points.len() - 1
            })
        };
        let mut faces = Vec::new();
        for face in &self.faces {
            let mut cut: Vec<usize> =
                edges_of(face).flat_map(|(from, to)| [number(from, to), number(to, from)]).collect();
            cut.dedup();
            faces.push(cut);
        }
        for (point, star) in self.stars().iter().enumerate() {
            faces.push(star.iter().rev().map(|&(target, _)| number(point, target)).collect());
        }
        Solid { points, faces }
    }

    /// A point amid each face, joined to the face's points.
    pub fn stellated(&self) -> Solid {
        let mut points = self.points.clone();
        let mut faces = Vec::new();
        for face in &self.faces {
            faces.extend(edges_of(face).map(|(from, to)| vec![from, to, points.len()]));
            points.push(self.centre(face));
        }
        Solid { points, faces }
    }

    /// A point for each corner, a face for each face, point and edge.
    pub fn expanded(&self) -> Solid {
        let mut numbers = HashMap::new();
        let mut points = Vec::new();
        let mut faces = Vec::new();
        for (number, face) in self.faces.iter().enumerate() {
            let centre = self.centre(face);
            faces.push((points.len()..points.len() + face.len()).collect());
            for &point in face {
                numbers.insert((number, point), points.len());
                points.push(middle([centre, self.points[point]].into_iter()));
            }
        }
        let edges = self.edges();
        for (number, face) in self.faces.iter().enumerate() {
            for (from, to) in edges_of(face).filter(|(from, to)| from < to) {
                let other = edges[&(to, from)];
                faces
                    .push([(number, to), (number, from), (other, from), (other, to)].map(|key| numbers[&key]).to_vec());
            }
        }
        for (point, star) in self.stars().iter().enumerate() {
            faces.push(star.iter().rev().map(|&(_, face)| numbers[&(face, point)]).collect());
        }
        Solid { points, faces }
    }

    /// Both, side by side in one list.
    pub fn with(mut self, other: Solid) -> Solid {
        let offset = self.points.len();
        self.points.extend(other.points);
        let moved = other.faces.into_iter().map(|face| face.into_iter().map(|p| p + offset).collect());
        self.faces.extend(moved);
        self
    }

    pub fn corners(&self) -> usize {
        self.faces.iter().map(Vec::len).sum()
    }

    /// Changes faces, edges and points at random, `times` times where it can be done, within `most_corners` corners and
    /// the limits of 01.
    pub fn roughened(self, random: &mut Random, times: usize, most_corners: usize) -> Solid {
        let mut work = Rough::new(self);
        for _ in 0..times {
            let face = random.below(work.solid.faces.len());
            let sides = work.solid.faces[face].len();
            let at = random.below(sides);
            let point = work.solid.faces[face][at];
            let room = |corners: usize, points: usize, faces: usize| {
                work.corners + corners <= most_corners
                    && work.solid.points.len() + points <= MAX_VERTICES
                    && work.solid.faces.len() + faces <= MAX_FACES
            };
            let ring = work.degree[point];
            match random.below(4) {
                0 if sides >= 4 && room(2, 0, 1) => {
                    let across = 2 + random.below(sides - 3);
                    work.split(face, at, (at + across) % sides);
                }
                1 if room(2 * sides, 1, sides - 1) => work.stellate(face),
                2 => work.merge(point, work.solid.faces[face][(at + 1) % sides]),
                3 if room(2 * ring, ring - 1, 1) => work.cut(face, point),
                _ => {}
            }
        }
        work.solid
    }
}

/// A solid under change, with the faces of its edges and the corners of its points.
struct Rough {
    solid: Solid,
    edges: Edges,
    degree: Vec<usize>,
    corners: usize,
}

impl Rough {
    fn new(solid: Solid) -> Rough {
        let mut degree = vec![0; solid.points.len()];
        for &point in solid.faces.iter().flatten() {
            degree[point] += 1;
        }
        Rough { edges: solid.edges(), corners: solid.corners(), degree, solid }
    }

    /// Puts a face in the place of face `number`, or after the last one.
    fn put(&mut self, number: usize, face: Vec<usize>) {
        self.edges.extend(edges_of(&face).map(|edge| (edge, number)));
        self.corners += face.len();
        for &point in &face {
            self.degree[point] += 1;
        }
        if number == self.solid.faces.len() {
            self.solid.faces.push(face);
        } else {
            self.solid.faces[number] = face;
        }
    }

    /// Takes the face out; its number stands free for `put`.
    fn take(&mut self, number: usize) -> Vec<usize> {
        let face = std::mem::take(&mut self.solid.faces[number]);
        for edge in edges_of(&face) {
            self.edges.remove(&edge);
        }
        self.corners -= face.len();
        for &point in &face {
            self.degree[point] -= 1;
        }
        face
    }

    fn add_point(&mut self, place: [i32; 3]) -> usize {
        self.solid.points.push(place);
        self.degree.push(0);
        self.solid.points.len() - 1
    }

    /// Splits a face by an edge between two of its points that no edge joins.
    fn split(&mut self, number: usize, i: usize, j: usize) {
        let face = &self.solid.faces[number];
        let (a, b) = (face[i], face[j]);
        let joined = self.edges.contains_key(&(a, b)) || self.edges.contains_key(&(b, a));
        if joined || self.degree[a] >= MOST || self.degree[b] >= MOST {
            return;
        }
        let turned = from_point(&self.take(number), a);
        let at = turned.iter().position(|&p| p == b).expect("the other point");
        let mut rest = turned[at..].to_vec();
        rest.push(a);
        self.put(number, turned[..=at].to_vec());
        self.put(self.solid.faces.len(), rest);
    }

    /// A new point amid a face, joined to all its points.
    fn stellate(&mut self, number: usize) {
        if self.solid.faces[number].iter().any(|&p| self.degree[p] >= MOST) {
            return;
        }
        let place = self.solid.centre(&self.solid.faces[number]);
        let face = self.take(number);
        let tip = self.add_point(place);
        for (i, (from, to)) in edges_of(&face).enumerate() {
            let free = if i == 0 { number } else { self.solid.faces.len() };
            self.put(free, vec![from, to, tip]);
        }
    }

    /// Takes the edge between two points away and makes one face of its two.
    fn merge(&mut self, from: usize, to: usize) {
        let [one, other] = [self.edges[&(from, to)], self.edges[&(to, from)]];
        let faces = &self.solid.faces;
        let shared = faces[one].iter().filter(|p| faces[other].contains(p)).count();
        let sides = faces[one].len() + faces[other].len() - 2;
        // an end keeps two corners fewer than the two faces give it, and has to keep three
        if one == other || shared != 2 || sides > MOST || self.degree[from] <= 3 || self.degree[to] <= 3 {
            return;
        }
        let (low, high) = (one.min(other), one.max(other));
        let high_face = self.take(high);
        let low_face = self.take(low);
        let (first, second) = if one == low { (low_face, high_face) } else { (high_face, low_face) };
        let mut merged = from_point(&first, to);
        let second = from_point(&second, from);
        merged.extend(&second[1..second.len() - 1]);
        self.put(low, merged);
        // the last face takes the free number
        let last = self.solid.faces.len() - 1;
        if high != last {
            let moved = self.take(last);
            self.put(high, moved);
        }
        self.solid.faces.pop();
    }

    /// Cuts a point off: a face with a new point on each of its edges takes its place.
    fn cut(&mut self, face: usize, point: usize) {
        let star = self.solid.star(&self.edges, point, face);
        if star.iter().any(|&(_, face)| self.solid.faces[face].len() >= MOST) {
            return;
        }
        let place = self.solid.points[point];
        let new: Vec<usize> = star
            .iter()
            .enumerate()
            .map(|(i, &(target, _))| {
                let near = middle([place, place, self.solid.points[target]].into_iter());
                if i == 0 {
                    self.solid.points[point] = near;
                    point
                } else {
                    self.add_point(near)
                }
            })
            .collect();
        for (i, &(_, face)) in star.iter().enumerate() {
            // the face leaves the point along edge i and reaches it along the edge before
            let reached = new[(i + new.len() - 1) % new.len()];
            let mut cut = from_point(&self.take(face), point);
            cut.splice(..1, [reached, new[i]]);
            self.put(face, cut);
        }
        self.put(self.solid.faces.len(), new.into_iter().rev().collect());
    }
}
