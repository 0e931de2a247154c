//! Closed surfaces that L13 speaks of and 01 refuses: one-sided ones, whose faces cannot all be listed the same way
//! round, and two-sided ones in which faces share several edges.

use crate::Solid;

/// A p times q grid of four-sided faces, whose points `name` joins: it takes row and column, up to p and q, to those of
/// the point that stands for both.
fn grid(p: usize, q: usize, name: impl Fn(usize, usize) -> (usize, usize)) -> Solid {
    let mut named = Vec::new();
    let mut number = |i: usize, j: usize| {
        let point = name(i, j);
        named.iter().position(|&other| other == point).unwrap_or_else(|| {
            named.push(point);
            named.len() - 1
        })
    };
    let mut faces = Vec::new();
    for i in 0..p {
        for j in 0..q {
            faces.push(vec![number(i, j), number(i, j + 1), number(i + 1, j + 1), number(i + 1, j)]);
        }
    }
    let points = named.iter().map(|&(i, j)| [100 * i as i32, 100 * j as i32, (7 * i * j) as i32]);
    Solid { points: points.collect(), faces }
}

impl Solid {
    /// A Klein bottle of p times q four-sided faces, both at least 3: a torus whose last ring meets the first one in
    /// reverse. Faces run the same way round as their neighbours, but for those across that seam.
    pub fn klein_bottle(p: usize, q: usize) -> Solid {
        grid(p, q, |i, j| if i < p { (i, j % q) } else { (0, (q - j % q) % q) })
    }

    /// A projective plane of p times q four-sided faces, both at least 3: a rectangle each of whose points on the rim is
    /// the one across. Its four ends are two points of two faces each, so that these faces share two edges.
    pub fn projective_plane(p: usize, q: usize) -> Solid {
        grid(p, q, |i, j| {
            // down to the first row, then to the first column, then once more where that is an end
            let (i, j) = if i == p { (0, q - j) } else { (i, j) };
            let (i, j) = if j == q { (p - i, 0) } else { (i, j) };
            if i == p {
                (0, q - j)
            } else {
                (i, j)
            }
        })
    }

    /// Half a cube, points that lie across each other being one: a projective plane of three four-sided faces, of which
    /// every two share two edges.
    pub fn hemicube() -> Solid {
        let points = vec![[0, 0, 0], [500, 0, 0], [0, 500, 0], [0, 0, 500]];
        Solid { points, faces: vec![vec![0, 1, 2, 3], vec![0, 2, 3, 1], vec![0, 3, 1, 2]] }
    }

    /// Half an icosahedron: the projective plane of six points and ten triangles.
    pub fn hemi_icosahedron() -> Solid {
        let points = (0..6).map(|k| [300 * k, 40 * k * k, -7 * k * k * k]).collect();
        let mut faces: Vec<Vec<usize>> = (0..5).map(|k| vec![5, k, (k + 1) % 5]).collect();
        faces.extend((0..5).map(|k| vec![k, (k + 1) % 5, (k + 3) % 5]));
        Solid { points, faces }
    }

    /// Two n-sided faces back to back, which share all their edges.
    pub fn pillow(n: usize) -> Solid {
        let points = (0..n as i32).map(|k| [k * 900, k * k * 50, 11]).collect();
        Solid { points, faces: vec![(0..n).collect(), (0..n).rev().collect()] }
    }

    /// The surface with a point more amid an edge of a face: the two faces of the edge share two edges instead of one.
    pub fn with_point_on(mut self, face: usize, at: usize) -> Solid {
        let sides = self.faces[face].len();
        let (from, to) = (self.faces[face][at], self.faces[face][(at + 1) % sides]);
        let amid = self.points.len();
        self.points.push([0, 1, 2].map(|axis| (self.points[from][axis] + self.points[to][axis]) / 2));
        for cycle in &mut self.faces {
            let n = cycle.len();
            let edge = |i: usize| (cycle[i], cycle[(i + 1) % n]);
            if let Some(i) = (0..n).find(|&i| edge(i) == (from, to) || edge(i) == (to, from)) {
                cycle.insert(i + 1, amid);
            }
        }
        self
    }
}
