//! The lists of 01 and L8, made from solids: coordinates and sharpness of many kinds, numbers and orders at random.

use crate::{Random, Solid, LARGEST_COORDINATE, MAX_CORNERS, MAX_FACES, MAX_VERTICES, MOST, PLAIN, SHARPEST};

/// Coordinates, side counts, vertex numbers of the corners, and u and v of each corner.
#[derive(Clone, Debug, PartialEq, Eq)]
pub struct Tables {
    pub coordinates: Vec<i32>,
    pub sides: Vec<u8>,
    pub corners: Vec<u16>,
    pub sharpness: Vec<u8>,
}

/// How sharp the corners of a mesh are.
#[derive(Clone, Copy, Debug, PartialEq, Eq)]
pub enum Sharpness {
    /// 8 and 8 throughout.
    Plain,
    /// 0 and 0 throughout.
    Blunt,
    /// 16 and 16 throughout.
    Sharp,
    /// 16 and 16 at one corner, else 8 and 8.
    OneCorner,
    /// Anything from 0 to 16.
    Random,
    /// 0 or 16.
    Ends,
}

impl Sharpness {
    pub const ALL: [Sharpness; 6] = [
        Sharpness::Plain,
        Sharpness::Blunt,
        Sharpness::Sharp,
        Sharpness::OneCorner,
        Sharpness::Random,
        Sharpness::Ends,
    ];

    fn of(self, corners: usize, random: &mut Random) -> Vec<u8> {
        let mut numbers: Vec<u8> = (0..2 * corners)
            .map(|_| match self {
                Sharpness::Plain | Sharpness::OneCorner => PLAIN,
                Sharpness::Blunt => 0,
                Sharpness::Sharp => SHARPEST,
                Sharpness::Random => random.below(usize::from(SHARPEST) + 1) as u8,
                Sharpness::Ends => *random.pick(&[0, SHARPEST]),
            })
            .collect();
        if self == Sharpness::OneCorner && corners > 0 {
            let corner = random.below(corners);
            numbers[2 * corner..2 * corner + 2].fill(SHARPEST);
        }
        numbers
    }
}

/// Where the points of a mesh go.
#[derive(Clone, Copy, Debug)]
pub enum Places {
    /// Where the solid has them.
    Own,
    /// Where the solid has them, a few steps off.
    Shaken,
    /// Anywhere.
    Anywhere,
    /// At the largest and the smallest coordinate.
    Extreme,
    /// Within three steps of the origin, so that roundings meet halves.
    Small,
    /// All at one point.
    One,
}

impl Places {
    pub const ALL: [Places; 6] =
        [Places::Own, Places::Shaken, Places::Anywhere, Places::Extreme, Places::Small, Places::One];

    fn of(self, points: &[[i32; 3]], random: &mut Random) -> Vec<i32> {
        let most = LARGEST_COORDINATE;
        let one = [0; 3].map(|_| random.between(-most, most));
        let mut numbers = Vec::with_capacity(3 * points.len());
        for point in points {
            for axis in 0..3 {
                numbers.push(match self {
                    Places::Own => point[axis],
                    Places::Shaken => (point[axis] + random.between(-300, 300)).clamp(-most, most),
                    Places::Anywhere => random.between(-most, most),
                    Places::Extreme => *random.pick(&[-most, most]),
                    Places::Small => random.between(-3, 3),
                    Places::One => one[axis],
                });
            }
        }
        numbers
    }
}

impl Tables {
    /// Three lists, with 8 and 8 throughout.
    pub fn plain(coordinates: Vec<i32>, sides: Vec<u8>, corners: Vec<u16>) -> Tables {
        let sharpness = vec![PLAIN; 2 * corners.len()];
        Tables { coordinates, sides, corners, sharpness }
    }

    /// The lists of a solid as it stands, with 8 and 8 throughout.
    pub fn of(solid: &Solid) -> Tables {
        Tables::plain(
            solid.points.iter().flatten().copied().collect(),
            solid.faces.iter().map(|face| face.len() as u8).collect(),
            solid.faces.iter().flatten().map(|&point| point as u16).collect(),
        )
    }

    /// The same mesh with other sharpness.
    pub fn sharpened(mut self, sharpness: Sharpness, random: &mut Random) -> Tables {
        self.sharpness = sharpness.of(self.corners.len(), random);
        self
    }

    /// Whether every number is 8, as in a file of version 1.
    pub fn is_plain(&self) -> bool {
        self.sharpness.iter().all(|&number| number == PLAIN)
    }

    /// The lists of a solid with its points at other places, other vertex numbers, the faces in another order, each
    /// begun at another corner, and sometimes all of them turned over; with 8 and 8 throughout.
    pub fn relabelled(solid: &Solid, places: Places, random: &mut Random) -> Tables {
        let mut numbers: Vec<usize> = (0..solid.points.len()).collect();
        random.shuffle(&mut numbers);
        let mut points = vec![[0; 3]; solid.points.len()];
        for (&number, &point) in numbers.iter().zip(&solid.points) {
            points[number] = point;
        }
        let turned_over = random.once_in(2);
        let mut faces: Vec<Vec<usize>> = solid.faces.iter().map(|f| f.iter().map(|&p| numbers[p]).collect()).collect();
        for face in &mut faces {
            let start = random.below(face.len());
            face.rotate_left(start);
            if turned_over {
                face.reverse();
            }
        }
        random.shuffle(&mut faces);
        let mut tables = Tables::of(&Solid { points, faces });
        tables.coordinates = places.of(&solid.points, random);
        tables
    }

    pub fn vertices(&self) -> usize {
        self.coordinates.len() / 3
    }

    /// The first corner of each face, and the number of corners after the last one.
    pub fn starts(&self) -> Vec<usize> {
        let mut starts = vec![0];
        for &side_count in &self.sides {
            starts.push(starts[starts.len() - 1] + usize::from(side_count));
        }
        starts
    }
}

/// Whether 01's limits let a solid pass.
fn fits(solid: &Solid) -> bool {
    let mut degree = vec![0; solid.points.len()];
    for &point in solid.faces.iter().flatten() {
        degree[point] += 1;
    }
    solid.points.len() <= MAX_VERTICES
        && solid.faces.len() <= MAX_FACES
        && solid.corners() <= MAX_CORNERS
        && solid.faces.iter().all(|face| face.len() <= MOST)
        && degree.into_iter().all(|d| d <= MOST)
}

fn base(random: &mut Random) -> Solid {
    let n = 3 + random.below(MOST - 2);
    match random.below(6) {
        0 => Solid::prism(n),
        1 => Solid::antiprism(n),
        2 => Solid::pyramid(n),
        3 => Solid::bipyramid(n),
        4 => Solid::torus(3 + random.below(5), n),
        _ => Solid::tetrahedron(),
    }
}

/// A solid of one part: a base, up to two operators that 01's limits allow, and changes at random.
fn part(random: &mut Random) -> Solid {
    let mut solid = base(random);
    for _ in 0..random.below(3) {
        let changed = match random.below(5) {
            0 => solid.dual(),
            1 => solid.truncated(),
            2 => solid.rectified(),
            3 => solid.stellated(),
            _ => solid.expanded(),
        };
        if fits(&changed) && changed.corners() <= 1_500 {
            solid = changed;
        }
    }
    if random.once_in(2) {
        let times = random.below(60);
        solid = solid.roughened(random, times, 1_500);
    }
    solid
}

/// A mesh of one to four parts, relabelled, with coordinates and sharpness of any kind. 01 accepts nearly all of them; small tori
/// have operators that make an edge or a vertex meet itself.
pub fn random_tables(random: &mut Random) -> Tables {
    let mut solid = part(random);
    while random.once_in(4) && solid.corners() < 4_000 {
        solid = solid.with(part(random));
    }
    let places = *random.pick(&Places::ALL);
    let sharpness = *random.pick(&Sharpness::ALL);
    Tables::relabelled(&solid, places, random).sharpened(sharpness, random)
}
