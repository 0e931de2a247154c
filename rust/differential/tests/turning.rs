//! L13, faces drawn the wrong way round: the proved library against the independent implementation, and both against
//! what the papers say of models that were turned here, face by face.

use differential::{each_case, link, turn};
use reference::Refusal;
use shapes::{
    damage, jumble, pinch, random_faces, random_tables, Places, Random, Sharpness, Solid, Tables, DAMAGES,
    DAMAGES_OF_EDGES,
};

fn refusal<T>(number: u32, place: usize) -> Result<T, Refusal> {
    Err(Refusal { number, place: place as u64 })
}

/// A surface whose faces all run the same way round.
fn two_sided(random: &mut Random) -> Solid {
    let n = 3 + random.below(14);
    match random.below(9) {
        0 => Solid::prism(n),
        1 => Solid::antiprism(n),
        2 => Solid::pyramid(n),
        3 => Solid::bipyramid(n),
        4 => Solid::torus(3 + random.below(6), n),
        5 => Solid::pillow(n),
        6 => Solid::prism(3 + random.below(5)).truncated(),
        7 => {
            // a point more on an edge: its two faces share two edges, and it has two corners
            let solid = Solid::torus(3 + random.below(4), 4);
            let (face, at) = (random.below(solid.faces.len()), random.below(4));
            solid.with_point_on(face, at)
        }
        _ => {
            let times = random.below(60);
            Solid::torus(4, n).roughened(random, times, 1_500)
        }
    }
}

/// A closed surface that no choice of turns serves.
fn one_sided(random: &mut Random) -> Solid {
    let (p, q) = (3 + random.below(8), 3 + random.below(8));
    match random.below(5) {
        0 => Solid::hemicube(),
        1 => Solid::hemi_icosahedron(),
        2 | 3 => Solid::klein_bottle(p, q),
        _ => Solid::projective_plane(p, q),
    }
}

/// The faces to turn where these are wrong and `owners` has the part of each face: in a part whose lowest face is right
/// the wrong ones, else the right ones.
fn asked(owners: &[usize], wrong: &[usize]) -> Vec<usize> {
    let is_wrong = |face: usize| wrong.contains(&face);
    let lowest = |face: usize| owners.iter().position(|&owner| owner == owners[face]).expect("at most the face itself");
    (0..owners.len()).filter(|&face| is_wrong(face) != is_wrong(lowest(face))).collect()
}

fn turned(tables: &Tables, faces: &[usize]) -> Tables {
    let mut turned = tables.clone();
    faces.iter().for_each(|&face| turned.turn_face(face));
    turned
}

/// The part of each face of an accepted mesh: there, faces that share a vertex hang together through edges.
fn parts_of(tables: &Tables) -> Vec<usize> {
    let mut part: Vec<usize> = (0..tables.vertices()).collect();
    let starts = tables.starts();
    let faces = || starts.windows(2).map(|ends| &tables.corners[ends[0]..ends[1]]);
    loop {
        let before = part.clone();
        for face in faces() {
            let least = face.iter().map(|&v| part[usize::from(v)]).min().expect("a face has vertices");
            face.iter().for_each(|&v| part[usize::from(v)] = least);
        }
        if part == before {
            return faces().map(|face| part[usize::from(face[0])]).collect();
        }
    }
}

/// Turns some faces of a sound model, and has them turned back; how many the library turned.
fn comes_back(sound: &Tables, owners: &[usize], random: &mut Random) -> usize {
    let faces = owners.len();
    let wrong = random_faces(faces, random);
    let model = turned(sound, &wrong);
    let expected = asked(owners, &wrong);
    let (found, listing) = turn(&model, faces, random).expect("a choice of turns serves");
    assert_eq!(listing, expected, "other faces are turned");
    assert!(found == turned(&model, &expected), "the lists are not those of the turned faces");
    // turning the same faces twice gives the model back, and nothing is left to turn
    assert!(turned(&found, &listing) == model, "turning twice is another model");
    assert_eq!(turn(&found, faces, random), Ok((found, vec![])));
    listing.len()
}

#[test]
fn turned_faces_come_back() {
    let (mut models, mut faces, mut corners) = (0, 0, 0);
    each_case(1_200, 131, |_, random| {
        let tables = random_tables(random);
        if link(&tables, tables.corners.len(), random).is_err() {
            return;
        }
        let owners = parts_of(&tables);
        for _ in 0..2 {
            faces += comes_back(&tables, &owners, random);
            models += 1;
            corners += tables.corners.len();
        }
    });
    println!("{models} models of {corners} corners, {faces} faces turned");
    assert!(std::env::var_os("MAHUNOPI_CASE").is_some() || faces > 0);
}

/// The same of surfaces that linking refuses by 12: faces that share two and more edges.
#[test]
fn faces_that_share_edges() {
    let mut refused = 0;
    each_case(1_000, 132, |_, random| {
        let surfaces: Vec<Solid> = (0..1 + random.below(4)).map(|_| two_sided(random)).collect();
        let kind = *random.pick(&Sharpness::ALL);
        let (tables, owners) = jumble(&surfaces, kind, random);
        // a face of sixteen that got a point more
        if tables.sides.iter().any(|&n| n > 16) {
            return;
        }
        comes_back(&tables, &owners, random);
        match link(&tables, tables.corners.len(), random) {
            Ok(_) => {}
            Err(Refusal { number: 12, .. }) => refused += 1,
            Err(refusal) => panic!("{refusal:?} of a surface that is listed the same way round"),
        }
    });
    println!("{refused} of them linking refuses by 12");
}

/// What already passes 10 and 11 is returned as it was, wherever its points lie and however sharp it is.
#[test]
fn sound_models_are_untouched() {
    each_case(400, 133, |_, random| {
        let tables = random_tables(random);
        match link(&tables, tables.corners.len(), random) {
            Ok(_) | Err(Refusal { number: 12 | 13, .. }) => {
                let faces = tables.sides.len();
                assert_eq!(turn(&tables, faces, random), Ok((tables, vec![])));
            }
            Err(_) => {}
        }
    });
    let mut random = Random::new(134);
    let folder = concat!(env!("CARGO_MANIFEST_DIR"), "/../../meshes");
    for name in ["cube", "octahedron", "prism", "crisp-prism", "tetrahedron", "torus"] {
        let bytes = std::fs::read(format!("{folder}/{name}.dms")).expect("a sample mesh");
        let mesh = mahunopi::decode(&bytes).expect("a sound sample");
        let tables = Tables {
            coordinates: mesh.coordinates,
            sides: mesh.sides,
            corners: mesh.corners,
            sharpness: mesh.sharpness,
        };
        let faces = tables.sides.len();
        assert_eq!(turn(&tables, faces, &mut random), Ok((tables, vec![])));
    }
}

/// Closed one-sided surfaces, alone and beside sound parts: 35 at the lowest face of the lowest of them, whichever faces
/// are turned besides.
#[test]
fn one_sided_surfaces() {
    let mut beyond_0 = 0;
    each_case(1_000, 135, |case, random| {
        let many = if case % 2 == 0 { 0 } else { random.below(4) };
        let twisted = 1 + random.below(2);
        let mut surfaces: Vec<Solid> = (0..twisted).map(|_| one_sided(random)).collect();
        surfaces.extend((0..many).map(|_| two_sided(random)));
        let kind = *random.pick(&Sharpness::ALL);
        let (tables, owners) = jumble(&surfaces, kind, random);
        if tables.sides.iter().any(|&n| n > 16) {
            return;
        }
        let model = turned(&tables, &random_faces(owners.len(), random));
        let lowest = owners.iter().position(|&owner| owner < twisted).expect("a one-sided part");
        assert_eq!(turn(&model, owners.len(), random), refusal(35, lowest));
        beyond_0 += usize::from(lowest > 0);
    });
    println!("{beyond_0} of them have a sound part first");
    assert!(std::env::var_os("MAHUNOPI_CASE").is_some() || beyond_0 > 100);
}

/// Parts that touch in vertices alone are parts for themselves: the lowest face of each is kept.
#[test]
fn parts_that_touch_in_a_vertex() {
    let mut random = Random::new(136);
    let two = [Solid::tetrahedron(), Solid::cube()];
    for round in 0..200 {
        let (mut tables, owners) = jumble(&two, Sharpness::Random, &mut random);
        // a vertex of the one becomes one of the other
        let starts = tables.starts();
        let some = |owner: usize, random: &mut Random| {
            let own: Vec<usize> = (0..owners.len()).filter(|&face| owners[face] == owner).collect();
            tables.corners[starts[*random.pick(&own)]]
        };
        let (kept, away) = (some(0, &mut random), some(1, &mut random));
        tables.corners.iter_mut().filter(|vertex| **vertex == away).for_each(|vertex| *vertex = kept);
        let wrong = random_faces(owners.len(), &mut random);
        let model = turned(&tables, &wrong);
        let (found, listing) = turn(&model, owners.len(), &mut random).expect("two parts");
        assert_eq!(listing, asked(&owners, &wrong), "round {round}");
        assert!(found == turned(&model, &listing));
        // a one-sided part that touches a sound one does not take it along
        let beside = [Solid::hemi_icosahedron(), Solid::cube()];
        let (mut tables, owners) = jumble(&beside, Sharpness::Plain, &mut random);
        let first = |owner: usize| owners.iter().position(|&other| other == owner).expect("a face of the part");
        let starts = tables.starts();
        let [kept, away] = [0, 1].map(|owner| tables.corners[starts[first(owner)]]);
        tables.corners.iter_mut().filter(|vertex| **vertex == away).for_each(|vertex| *vertex = kept);
        assert_eq!(turn(&tables, owners.len(), &mut random), refusal(35, first(0)), "round {round}");
    }
    // a mesh that touches itself or another part in a vertex, as `pinch` makes it
    each_case(300, 137, |_, random| {
        let mut tables = random_tables(random);
        pinch(&mut tables, random);
        tables.sharpness.resize(2 * tables.corners.len(), 3);
        let faces = tables.sides.len();
        let model = turned(&tables, &random_faces(faces, random));
        let _ = turn(&model, faces, random);
    });
}

/// The lowest corner whose edge, in either direction, leaves another number of corners than two.
fn lowest_bad_corner(tables: &Tables) -> Option<usize> {
    let starts = tables.starts();
    let mut edges = Vec::new();
    for ends in starts.windows(2) {
        let face = &tables.corners[ends[0]..ends[1]];
        edges.extend((0..face.len()).map(|i| (face[i], face[(i + 1) % face.len()])));
    }
    let leaves = |&(a, b): &(u16, u16)| edges.iter().filter(|&&edge| edge == (a, b) || edge == (b, a)).count();
    edges.iter().position(|edge| leaves(edge) != 2)
}

/// Edges in one face, in three and in four: 34 at the lowest corner that such an edge leaves, one-sided parts or not.
#[test]
fn edges_in_other_numbers_of_faces() {
    let mut first = 0;
    each_case(1_000, 138, |case, random| {
        let mut surfaces = vec![two_sided(random)];
        if random.once_in(3) {
            surfaces.push(one_sided(random));
        }
        let (mut tables, _) = jumble(&surfaces, Sharpness::Random, random);
        for _ in 0..1 + random.below(2) {
            tables.damage_edges(case as usize % DAMAGES_OF_EDGES, random);
        }
        if tables.sides.iter().any(|&n| n > 16) {
            return;
        }
        let faces = tables.sides.len();
        let model = turned(&tables, &random_faces(faces, random));
        let place = match lowest_bad_corner(&model) {
            Some(place) => place,
            None => return,
        };
        first += usize::from(place == 0);
        assert_eq!(turn(&model, faces, random), refusal(34, place));
    });
    println!("{first} of them at corner 0");
}

/// Single triangles, one face twice and thrice, and a book of four faces that pass 10 and 11 in pairs but share an edge.
#[test]
fn small_faulty_models() {
    let mut random = Random::new(139);
    let mut of = |faces: &[&[u16]]| {
        let tables = Tables::plain(
            vec![0; 24],
            faces.iter().map(|face| face.len() as u8).collect(),
            faces.iter().flat_map(|face| face.iter().copied()).collect(),
        );
        turn(&tables, faces.len(), &mut random).map(|(turned, faces)| (turned.corners, faces))
    };
    assert_eq!(of(&[&[0, 1, 2]]), refusal(34, 0));
    assert_eq!(of(&[&[0, 1, 2], &[0, 2, 1]]), Ok((vec![0, 1, 2, 0, 2, 1], vec![])));
    assert_eq!(of(&[&[0, 1, 2], &[0, 1, 2]]), Ok((vec![0, 1, 2, 0, 2, 1], vec![1])));
    assert_eq!(of(&[&[0, 1, 2], &[2, 0, 1]]), Ok((vec![0, 1, 2, 2, 1, 0], vec![1])));
    assert_eq!(of(&[&[0, 1, 2], &[0, 2, 1], &[0, 1, 2]]), refusal(34, 0));
    assert_eq!(of(&[&[0, 1, 2], &[0, 2, 1], &[0, 1, 2], &[0, 2, 1]]), refusal(34, 0));
    assert_eq!(of(&[&[3, 4, 5], &[5, 4, 3], &[0, 1, 2]]), refusal(34, 6));
    // two pillows that share the edge of 0 and 1: it leaves corners 3, 6, 9 and 12
    let pages: [&[u16]; 6] = [&[5, 6, 7], &[0, 1, 2], &[0, 1, 2], &[1, 0, 3], &[0, 1, 3], &[7, 6, 5]];
    assert_eq!(of(&pages), refusal(34, 3));
    // two faces that share two edges, closed by a third
    assert_eq!(
        of(&[&[0, 1, 2, 3], &[2, 1, 0, 4], &[0, 3, 2, 4]]),
        Ok((vec![0, 1, 2, 3, 2, 1, 0, 4, 0, 3, 2, 4], vec![]))
    );
    assert_eq!(
        of(&[&[0, 1, 2, 3], &[0, 1, 2, 4], &[0, 3, 2, 4]]),
        Ok((vec![0, 1, 2, 3, 0, 4, 2, 1, 0, 3, 2, 4], vec![1]))
    );
    // half a cube: every two faces share two edges, and no turns serve
    assert_eq!(of(&[&[0, 1, 2, 3], &[0, 2, 3, 1], &[0, 3, 1, 2]]), refusal(35, 0));
    assert_eq!(of(&[&[4, 5, 6], &[4, 5, 6], &[0, 1, 2, 3], &[0, 2, 3, 1], &[0, 3, 1, 2]]), refusal(35, 2));
}

/// The numbers in their order, each with a place of its own in the models of `base`.
const ORDER: [(u32, usize); 10] =
    [(36, 11), (4, 0), (27, 95), (5, 3), (6, 50), (7, 35), (8, 40), (28, 83), (9, 43), (34, 6)];

/// Twelve faces of four sides: two cubes; or a cube, half a cube, which is one-sided, and three faces of which two share
/// two edges.
fn base(one_sided: bool) -> Tables {
    let three = Solid { points: vec![[7; 3]; 5], faces: vec![vec![0, 1, 2, 3], vec![2, 1, 0, 4], vec![0, 3, 2, 4]] };
    let beside = if one_sided { Solid::hemicube().with(three) } else { Solid::cube() };
    Tables::of(&Solid::cube().with(beside))
}

fn put(tables: &mut Tables, number: u32) {
    match number {
        4 => tables.coordinates.push(0),
        27 => drop(tables.sharpness.pop()),
        5 => tables.sides[3] = 2,
        // a side more on two faces
        6 => tables.sides[..2].fill(5),
        7 => tables.coordinates[35] = 65_537,
        8 => tables.corners[40] = 5_000,
        28 => tables.sharpness[83] = 17,
        9 => tables.corners[43] = tables.corners[41],
        // corner 18 ran from 7 to 6, and corner 6 runs back
        34 => tables.corners[19] = 8,
        _ => {}
    }
}

/// Every number before every later one and before all of them, with 35 besides and without.
#[test]
fn the_order_of_two_faults() {
    let mut random = Random::new(140);
    for one_sided in [false, true] {
        let sound = base(one_sided);
        let mut of = |numbers: &[u32]| {
            let mut faulty = sound.clone();
            numbers.iter().for_each(|&number| put(&mut faulty, number));
            let length = if numbers.contains(&36) { 11 } else { 12 };
            turn(&faulty, length, &mut random).map(|(_, turned)| turned)
        };
        assert_eq!(of(&[]), if one_sided { refusal(35, 6) } else { Ok(vec![]) });
        for (at, &(number, place)) in ORDER.iter().enumerate() {
            assert_eq!(of(&[number]), refusal(number, place));
            let later: Vec<u32> = ORDER[at + 1..].iter().map(|&(number, _)| number).collect();
            for &later in &later {
                assert_eq!(of(&[number, later]), refusal(number, place), "{number} with {later}");
            }
            let found = of(&[&[number][..], &later].concat()).expect_err("many faults");
            assert_eq!(found.number, number, "{number} with all later ones");
        }
    }
}

/// Every refusal, alone and mixed with others, with listings of every length; the place of 36 is the listing's length.
#[test]
fn every_refusal() {
    let mut seen = [0; 37];
    each_case(6_000, 141, |case, random| {
        let mut tables = if random.once_in(3) {
            let mut surfaces = vec![two_sided(random), one_sided(random)];
            random.shuffle(&mut surfaces);
            jumble(&surfaces, Sharpness::Random, random).0
        } else {
            random_tables(random)
        };
        for face in random_faces(tables.sides.len(), random) {
            tables.turn_face(face);
        }
        for _ in 0..random.below(3) {
            if random.once_in(2) {
                damage(&mut tables, DAMAGES[case as usize % DAMAGES.len()], random);
            } else if tables.starts()[tables.sides.len()] == tables.corners.len()
                && tables.sharpness.len() == 2 * tables.corners.len()
                && tables.sides.iter().all(|&n| n > 2)
                && !tables.sides.is_empty()
                && tables.coordinates.len() % 3 == 0
            {
                let way = random.below(DAMAGES_OF_EDGES);
                tables.damage_edges(way, random);
            }
        }
        let faces = tables.sides.len();
        let length = match random.below(8) {
            0 => *random.pick(&[0, 1, faces.saturating_sub(1), faces + 1, 2 * faces, 4_096, 4_097, 70_000]),
            _ => faces,
        };
        match turn(&tables, length, random) {
            Ok(_) => seen[0] += 1,
            Err(refusal) => {
                assert!(refusal.number != 36 || refusal.place == length as u64);
                assert_eq!(refusal.number == 36, length != faces);
                seen[refusal.number as usize] += 1;
            }
        }
    });
    let numbers = [36, 4, 27, 5, 6, 7, 8, 28, 9, 34, 35].map(|number: usize| (number, seen[number]));
    println!("turned {}, refused by {numbers:?}", seen[0]);
    assert!(std::env::var_os("MAHUNOPI_CASE").is_some() || numbers.iter().all(|&(_, times)| times > 0), "{seen:?}");
    assert_eq!(seen.iter().sum::<u32>() - seen[0], numbers.iter().map(|&(_, times)| times).sum::<u32>());
}

/// Soups of few faces on few vertices, in which every kind of answer occurs.
#[test]
fn soups_of_faces() {
    let mut seen = [0; 36];
    each_case(30_000, 142, |_, random| {
        let vertices = 3 + random.below(4);
        let mut faces: Vec<Vec<u16>> = Vec::new();
        for _ in 0..1 + random.below(8) {
            let mut all: Vec<u16> = (0..vertices as u16).collect();
            random.shuffle(&mut all);
            all.truncate(3 + random.below(2));
            faces.push(all);
        }
        // often closed: each face once more
        if random.once_in(2) {
            let again = faces.clone();
            faces.extend(again);
            random.shuffle(&mut faces);
        }
        let tables =
            Tables::plain(vec![0; 3 * vertices], faces.iter().map(|face| face.len() as u8).collect(), faces.concat())
                .sharpened(Sharpness::Random, random);
        let answer = turn(&tables, faces.len(), random).map(|_| ());
        seen[answer.map_or_else(|refusal| refusal.number as usize, |()| 0)] += 1;
    });
    println!("turned {}, refused by 34 {}, by 35 {}", seen[0], seen[34], seen[35]);
}

/// Models at the limits: 8,192 corners, the most faces that these can be, 2,048 vertices, long and narrow ones, and many
/// parts.
#[test]
fn largest_models() {
    let mut random = Random::new(143);
    let many = |one: &Solid, times: usize| vec![one.clone(); times];
    let models = [
        vec![Solid::torus(32, 64)],
        vec![Solid::torus(3, 682)],
        vec![Solid::torus(682, 3)],
        vec![Solid::torus(16, 32).stellated()],
        vec![Solid::torus(22, 31).stellated()],
        many(&Solid::tetrahedron(), 512),
        many(&Solid::pillow(3), 682),
        many(&Solid::pillow(16), 128),
        many(&Solid::prism(16), 64),
    ];
    for (number, surfaces) in models.iter().enumerate() {
        let (tables, owners) = jumble(surfaces, Sharpness::Random, &mut random);
        assert!(number != 4 || tables.sides.len() == 2_728, "nearly the 2,730 triangles that 8,192 corners allow");
        for _ in 0..3 {
            comes_back(&tables, &owners, &mut random);
        }
    }
    let twisted = [Solid::klein_bottle(32, 64), Solid::klein_bottle(3, 682), Solid::projective_plane(30, 67)];
    for surface in twisted {
        let places = Places::Extreme;
        let tables = Tables::relabelled(&surface, places, &mut random).sharpened(Sharpness::Ends, &mut random);
        let faces = tables.sides.len();
        let model = turned(&tables, &random_faces(faces, &mut random));
        assert_eq!(turn(&model, faces, &mut random), refusal(35, 0));
    }
    // the last part of many is the one-sided one
    let mut surfaces = many(&Solid::tetrahedron(), 500);
    surfaces.push(Solid::hemicube());
    let all = surfaces.into_iter().reduce(Solid::with).expect("many parts");
    assert_eq!(turn(&Tables::of(&all), 2_003, &mut random), refusal(35, 2_000));
}
