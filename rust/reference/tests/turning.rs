//! L13: the fast turning against a literal one, which tries every choice of turns of each part of a small model; turns
//! worked out by hand; and the one-sided surfaces of `shapes`, which are what they are said to be.

use std::collections::HashMap;

use reference::{check, turn, turn_file, Lists, Refusal};
use shapes::{jumble, random_faces, Random, Sharpness, Solid, Tables, DAMAGES_OF_EDGES};

type Turned = Result<(Tables, Vec<usize>), Refusal>;

fn refused<T>(number: u32, place: usize) -> Result<T, Refusal> {
    Err(Refusal { number, place: place as u64 })
}

/// The turned lists and faces, as the reference has them; entries of the listing after the last keep what they held.
fn fast(tables: &Tables) -> Turned {
    let mut turned = tables.clone();
    let before: Vec<u16> = (0..tables.sides.len()).map(|face| 40_000 + face as u16).collect();
    let mut listing = before.clone();
    let answer = turn(&turned.coordinates, &turned.sides, &mut turned.corners, &mut turned.sharpness, &mut listing);
    let count = *answer.as_ref().unwrap_or(&0);
    assert_eq!(listing[count..], before[count..], "entries that no face belongs in");
    if answer.is_err() {
        assert_eq!(turned, *tables, "a refusal changes the lists");
    }
    answer.map(|count| (turned, listing[..count].iter().map(|&face| usize::from(face)).collect()))
}

/// The faces as cycles of vertices.
fn faces_of(tables: &Tables) -> Vec<Vec<u16>> {
    let starts = tables.starts();
    starts.windows(2).map(|ends| tables.corners[ends[0]..ends[1]].to_vec()).collect()
}

fn leaving(face: &[u16]) -> impl Iterator<Item = (u16, u16)> + '_ {
    (0..face.len()).map(|i| (face[i], face[(i + 1) % face.len()]))
}

fn has_edge(face: &[u16], edge: (u16, u16)) -> bool {
    leaving(face).any(|(from, to)| (from, to) == edge || (to, from) == edge)
}

/// Whether faces by themselves have no fault of 10 and 11.
fn passes(faces: &[Vec<u16>]) -> bool {
    let edges: Vec<(u16, u16)> = faces.iter().flat_map(|face| leaving(face)).collect();
    edges.iter().enumerate().all(|(at, &(from, to))| !edges[..at].contains(&(from, to)) && edges.contains(&(to, from)))
}

/// The faces, those of the choice turned.
fn with_turns(faces: &[Vec<u16>], choice: usize) -> Vec<Vec<u16>> {
    let mut turned = faces.to_vec();
    for (number, face) in turned.iter_mut().enumerate() {
        if choice >> number & 1 == 1 {
            face[1..].reverse();
        }
    }
    turned
}

/// All choices, as bits by number of face, whose turns leave no fault of 10 and 11.
fn choices(faces: &[Vec<u16>]) -> Vec<usize> {
    (0..1 << faces.len()).filter(|&choice| passes(&with_turns(faces, choice))).collect()
}

/// The lowest face that each face hangs together with through shared edges.
fn parts(faces: &[Vec<u16>]) -> Vec<usize> {
    let mut lowest: Vec<usize> = (0..faces.len()).collect();
    loop {
        let before = lowest.clone();
        for f in 0..faces.len() {
            for g in 0..faces.len() {
                if leaving(&faces[f]).any(|edge| has_edge(&faces[g], edge)) {
                    lowest[f] = lowest[f].min(lowest[g]);
                }
            }
        }
        if lowest == before {
            return lowest;
        }
    }
}

/// 34, 35 and the turns of a model without a fault of 4 to 9, each by trying everything.
fn literal(tables: &Tables) -> Turned {
    let faces = faces_of(tables);
    let corners = faces.iter().flat_map(|face| leaving(face));
    for (corner, edge) in corners.enumerate() {
        if faces.iter().filter(|face| has_edge(face, edge)).count() != 2 {
            return refused(34, corner);
        }
    }
    let part_of = parts(&faces);
    let mut turned = Vec::new();
    for lowest in 0..faces.len() {
        let members: Vec<usize> = (0..faces.len()).filter(|&face| part_of[face] == lowest).collect();
        if members.is_empty() {
            continue;
        }
        let part: Vec<Vec<u16>> = members.iter().map(|&face| faces[face].clone()).collect();
        let all = choices(&part);
        // bit 0 is the lowest face
        let keeping: Vec<usize> = all.iter().copied().filter(|choice| choice & 1 == 0).collect();
        match keeping[..] {
            [] => {
                assert!(all.is_empty(), "turning all faces of a part is as good");
                return refused(35, lowest);
            }
            [choice] => {
                turned.extend((0..members.len()).filter(|bit| choice >> bit & 1 == 1).map(|bit| members[bit]));
            }
            _ => panic!("two choices that keep the lowest face"),
        }
    }
    turned.sort_unstable();
    let mut expected = tables.clone();
    turned.iter().for_each(|&face| expected.turn_face(face));
    Ok((expected, turned))
}

/// A face of three or four random vertices of a few.
fn random_face(vertices: usize, random: &mut Random) -> Vec<usize> {
    let mut all: Vec<usize> = (0..vertices).collect();
    random.shuffle(&mut all);
    all.truncate(3 + random.below(2));
    all
}

/// A surface of at most ten faces.
fn small_surface(random: &mut Random) -> Solid {
    match random.below(14) {
        0 => Solid::tetrahedron(),
        1 => Solid::pyramid(4),
        2 => Solid::cube(),
        3 => Solid::prism(3),
        4 => Solid::bipyramid(3),
        5 => Solid::bipyramid(4),
        6 => Solid::pillow(3 + random.below(3)),
        7 => Solid::hemicube(),
        8 => Solid::hemi_icosahedron(),
        9 => Solid::klein_bottle(3, 3),
        10 => Solid::projective_plane(3, 3),
        11 => Solid::torus(3, 3),
        12 => {
            let solid = Solid::tetrahedron();
            let (face, at) = (random.below(4), random.below(3));
            solid.with_point_on(face, at)
        }
        _ => {
            let vertices = 4 + random.below(3);
            let faces = (0..1 + random.below(7)).map(|_| random_face(vertices, random)).collect();
            Solid { points: vec![[1, 2, 3]; vertices], faces }
        }
    }
}

#[test]
fn the_fast_turning_is_the_literal_one() {
    let mut random = Random::new(131);
    let mut seen: HashMap<u32, usize> = HashMap::new();
    for case in 0..1_500 {
        let mut surfaces = vec![small_surface(&mut random)];
        while random.once_in(2) && surfaces.len() < 3 {
            let more = small_surface(&mut random);
            if surfaces.iter().map(|surface| surface.faces.len()).sum::<usize>() + more.faces.len() <= 12 {
                surfaces.push(more);
            }
        }
        let (mut tables, _) = jumble(&surfaces, Sharpness::Random, &mut random);
        if random.once_in(4) {
            let way = random.below(DAMAGES_OF_EDGES);
            tables.damage_edges(way, &mut random);
        }
        for face in random_faces(tables.sides.len(), &mut random) {
            tables.turn_face(face);
        }
        let found = fast(&tables);
        assert_eq!(found, literal(&tables), "case {case}");
        // over all choices for the whole model at once: refused exactly when none serves
        let faces = faces_of(&tables);
        if faces.len() <= 11 {
            assert_eq!(found.is_ok(), !choices(&faces).is_empty(), "case {case}");
        }
        *seen.entry(found.map_or_else(|refusal| refusal.number, |_| 0)).or_default() += 1;
    }
    println!("turned {}, refused by 34 {}, by 35 {}", seen[&0], seen[&34], seen[&35]);
    assert!(seen.len() == 3 && seen.values().all(|&times| times > 100), "{seen:?}");
}

/// A tetrahedron with numbers of its own at every corner, its faces 0 and 2 turned. Face 0 is kept, so 1 and 3 turn.
#[test]
fn a_tetrahedron_by_hand() {
    let tables = Tables {
        coordinates: vec![0; 12],
        sides: vec![3; 4],
        // 0 1 2, 0 2 3, 0 3 1, 1 3 2 would run the same way round
        corners: vec![0, 2, 1, 0, 2, 3, 0, 1, 3, 1, 3, 2],
        sharpness: vec![0, 1, 2, 3, 4, 5, 6, 7, 8, 9, 10, 11, 12, 13, 14, 15, 16, 0, 1, 2, 3, 4, 5, 6],
    };
    let (turned, faces) = fast(&tables).unwrap();
    assert_eq!(faces, [1, 3]);
    assert_eq!(turned.corners, [0, 2, 1, 0, 3, 2, 0, 1, 3, 1, 2, 3]);
    let pairs = [
        [0, 1, 2, 3, 4, 5],
        // the first corner's pair changes places too
        [7, 6, 11, 10, 9, 8],
        [12, 13, 14, 15, 16, 0],
        [2, 1, 6, 5, 4, 3],
    ];
    assert_eq!(turned.sharpness, pairs.concat());
    assert_eq!(fast(&turned).unwrap(), (turned, vec![]));
}

#[test]
fn refusals_in_their_order() {
    let cube = Tables::of(&Solid::cube());
    let of = |tables: &Tables, room: usize| {
        let mut lent = tables.clone();
        let mut listing = vec![9; room];
        let answer = turn(&lent.coordinates, &lent.sides, &mut lent.corners, &mut lent.sharpness, &mut listing);
        assert_eq!((lent == *tables, listing == vec![9; room]), (true, true));
        answer
    };
    assert_eq!(of(&cube, 6), Ok(0));
    assert_eq!(of(&cube, 5), refused(36, 5));
    assert_eq!(of(&cube, 7), refused(36, 7));
    let empty = Tables { coordinates: vec![], sides: vec![], corners: vec![], sharpness: vec![] };
    assert_eq!(of(&empty, 1), refused(36, 1));
    assert_eq!(of(&empty, 0), refused(4, 0));
    // each with all those after it
    let mut tables = Tables::of(&Solid::hemicube().with(Solid::cube()));
    assert_eq!(of(&tables, 9), refused(35, 0));
    // corner 18 runs from 10 to 11, and corner 30 did so the other way round
    tables.corners[30] = 1;
    assert_eq!(of(&tables, 9), refused(34, 18));
    tables.corners[17] = tables.corners[19];
    assert_eq!(of(&tables, 9), refused(9, 19));
    tables.sharpness[70] = 17;
    assert_eq!(of(&tables, 9), refused(28, 70));
    tables.corners[35] = 12;
    assert_eq!(of(&tables, 9), refused(8, 35));
    tables.coordinates[4] = 65_537;
    assert_eq!(of(&tables, 9), refused(7, 4));
    tables.sides[8] = 5;
    assert_eq!(of(&tables, 9), refused(6, 37));
    tables.sides[7] = 17;
    assert_eq!(of(&tables, 9), refused(5, 7));
    tables.sharpness.pop();
    assert_eq!(of(&tables, 9), refused(27, 71));
    tables.coordinates.push(0);
    assert_eq!(of(&tables, 9), refused(4, 0));
    assert_eq!(of(&tables, 8), refused(36, 8));
}

/// Two-sided parts beside one-sided ones; the place is the lowest face of the lowest one-sided part.
#[test]
fn one_sided_surfaces() {
    let mut random = Random::new(132);
    let mut one_sided = vec![Solid::hemicube(), Solid::hemi_icosahedron()];
    for (p, q) in [(3, 3), (3, 4), (4, 3), (5, 7), (16, 3), (20, 30)] {
        one_sided.push(Solid::klein_bottle(p, q));
        one_sided.push(Solid::projective_plane(p, q));
        let torus = Tables::of(&Solid::torus(p, q));
        assert_eq!(fast(&torus), Ok((torus, vec![])));
    }
    for surface in &one_sided {
        let edges = surface.faces.iter().map(Vec::len).sum::<usize>() / 2;
        let euler = surface.points.len() as i64 - edges as i64 + surface.faces.len() as i64;
        assert!(euler == 0 || euler == 1, "a Klein bottle has 0, a projective plane 1");
        let tables = Tables::of(surface);
        assert_eq!(fast(&tables), refused(35, 0));
        assert_eq!(check(lists(&tables)).unwrap_err().number, 10);
        let beside = [Solid::cube(), surface.clone(), Solid::torus(4, 5), Solid::hemicube()];
        for _ in 0..20 {
            let (mut tables, owners) = jumble(&beside, Sharpness::Random, &mut random);
            for face in random_faces(owners.len(), &mut random) {
                tables.turn_face(face);
            }
            let lowest = owners.iter().position(|owner| owner % 2 == 1).unwrap();
            assert_eq!(fast(&tables), refused(35, lowest));
        }
    }
    for n in 3..=16 {
        let pillow = Tables::of(&Solid::pillow(n));
        let mut turned = pillow.clone();
        turned.turn_face(1);
        assert_eq!(fast(&pillow), Ok((pillow.clone(), vec![])));
        assert_eq!(fast(&turned), Ok((pillow, vec![1])));
    }
}

fn lists(tables: &Tables) -> Lists<'_> {
    Lists {
        coordinates: &tables.coordinates,
        sides: &tables.sides,
        corners: &tables.corners,
        sharpness: &tables.sharpness,
    }
}

/// Files of both versions come back in their own.
#[test]
fn turned_files() {
    let cube = Tables::of(&Solid::cube());
    let mut turned = cube.clone();
    turned.turn_face(2);
    turned.turn_face(5);
    for version in [1, 2] {
        let sound = reference::encode(lists(&cube), version);
        assert_eq!(turn_file(&sound), Ok((sound.clone(), vec![])));
        assert_eq!(turn_file(&reference::encode(lists(&turned), version)), Ok((sound.clone(), vec![2, 5])));
        assert_eq!(turn_file(&sound[1..]), refused(1, 0));
        assert_eq!(turn_file(&sound[..60]), refused(3, 0));
    }
    assert_eq!(turn_file(&reference::encode(lists(&cube), 3)), refused(2, 0));
}
