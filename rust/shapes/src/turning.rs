//! L13's models: faces turned, surfaces jumbled in one list, and damage to their edges.

use crate::{Random, Sharpness, Solid, Tables, PLAIN};

/// What `Tables::damage_edges` does to the faces at an edge.
pub const DAMAGES_OF_EDGES: usize = 5;

impl Tables {
    /// Turns a face: the order of its corners is reversed after the first one, and each corner takes its sharpness along,
    /// u and v exchanged.
    pub fn turn_face(&mut self, face: usize) {
        let first: usize = self.sides[..face].iter().map(|&side_count| usize::from(side_count)).sum();
        let n = usize::from(self.sides[face]);
        let own: Vec<(u16, u8, u8)> = (first..first + n)
            .map(|corner| (self.corners[corner], self.sharpness[2 * corner], self.sharpness[2 * corner + 1]))
            .collect();
        for position in 0..n {
            let (vertex, u, v) = own[(n - position) % n];
            let corner = first + position;
            self.corners[corner] = vertex;
            self.sharpness[2 * corner] = v;
            self.sharpness[2 * corner + 1] = u;
        }
    }

    /// Adds a face with 8 and 8 at its corners.
    fn add_face(&mut self, vertices: &[u16]) {
        self.sides.push(vertices.len() as u8);
        self.corners.extend(vertices);
        self.sharpness.resize(2 * self.corners.len(), PLAIN);
    }

    /// Takes a face out.
    fn remove_face(&mut self, face: usize) {
        let starts = self.starts();
        let own = starts[face]..starts[face + 1];
        self.sides.remove(face);
        self.corners.drain(own.clone());
        self.sharpness.drain(2 * own.start..2 * own.end);
    }

    /// Leaves edges that are not in exactly two faces, in one of `DAMAGES_OF_EDGES` ways: a face left out, a face twice,
    /// a triangle more at an edge, a face that leads elsewhere, a second pair of faces at an edge. Four faces at an edge
    /// may each have another that runs the other way.
    pub fn damage_edges(&mut self, way: usize, random: &mut Random) {
        let face = random.below(self.sides.len());
        let starts = self.starts();
        let own = starts[face]..starts[face + 1];
        let vertices = self.corners[own.clone()].to_vec();
        let new = self.vertices() as u16;
        match way {
            0 if self.sides.len() > 1 => self.remove_face(face),
            1 => self.add_face(&vertices),
            2 => {
                self.coordinates.extend([5, 6, 7]);
                self.add_face(&[vertices[0], vertices[1], new]);
            }
            3 => {
                self.coordinates.extend([5, 6, 7]);
                self.corners[own.start + random.below(own.len())] = new;
            }
            _ => {
                // a pillow along the edge
                self.coordinates.extend([5, 6, 7]);
                self.add_face(&[vertices[0], vertices[1], new]);
                self.add_face(&[vertices[1], vertices[0], new]);
            }
        }
    }
}

/// The lists of surfaces that share no point, no face turned: vertices and faces in random order, each face begun at a
/// random corner, sharpness of a kind; and the surface that each face belongs to.
pub fn jumble(surfaces: &[Solid], sharpness: Sharpness, random: &mut Random) -> (Tables, Vec<usize>) {
    let mut points: Vec<[i32; 3]> = Vec::new();
    let mut faces: Vec<(usize, Vec<usize>)> = Vec::new();
    for (number, surface) in surfaces.iter().enumerate() {
        let offset = points.len();
        points.extend(&surface.points);
        faces.extend(surface.faces.iter().map(|face| (number, face.iter().map(|&p| p + offset).collect())));
    }
    let mut numbers: Vec<usize> = (0..points.len()).collect();
    random.shuffle(&mut numbers);
    let mut moved = vec![[0; 3]; points.len()];
    for (&number, &point) in numbers.iter().zip(&points) {
        moved[number] = point;
    }
    for (_, face) in &mut faces {
        face.iter_mut().for_each(|point| *point = numbers[*point]);
        let start = random.below(face.len());
        face.rotate_left(start);
    }
    random.shuffle(&mut faces);
    let (owners, faces): (Vec<usize>, Vec<Vec<usize>>) = faces.into_iter().unzip();
    (Tables::of(&Solid { points: moved, faces }).sharpened(sharpness, random), owners)
}

/// Few, some, most or all of the faces, by rising number.
pub fn random_faces(faces: usize, random: &mut Random) -> Vec<usize> {
    let (of, out_of) = *random.pick(&[(0, 1), (1, 16), (1, 2), (15, 16), (1, 1)]);
    (0..faces).filter(|_| random.below(out_of) < of).collect()
}
