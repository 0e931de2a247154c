//! Is it all squares? The proved library against the independent implementation, and against the lines of `inspect`.

use differential::{each_case, irregular, lists, mesh, survey, version};
use reference::{encode, Irregular, Refusal, MOST};
use shapes::{damage, random_tables, Places, Random, Solid, Tables, DAMAGES};

/// What is found agrees with the lines that `inspect` prints of the mesh's file, and the wrapper finds the same.
fn search(tables: &Tables, random: &mut Random) -> Result<(Irregular, usize), Refusal> {
    let result = irregular(tables, random);
    match (result, mahunopi::irregular(mesh(tables))) {
        (Err(refusal), Err(wrapped)) => {
            assert_eq!((wrapped.number(), wrapped.place), (refusal.number, refusal.place));
        }
        (Ok((found, read)), Ok(wrapped)) => {
            let asked = match found {
                Irregular::Face(face) => mahunopi::Irregular::Face { face, sides_read: read },
                Irregular::Vertex(vertex) => mahunopi::Irregular::Vertex { vertex, sides_read: read },
                Irregular::None => mahunopi::Irregular::None { sides_read: read },
            };
            assert_eq!(wrapped, asked);
            let bytes = encode(lists(tables), version(tables, random));
            let counts =
                survey(&bytes, bytes.len() as u64, [MOST + 1; 2], random).expect("the file of an accepted mesh");
            let others = || counts.by_number.iter().enumerate().filter(|&(m, _)| m != 4);
            let faces = others().any(|(_, &(_, faces))| faces > 0);
            let vertices = others().any(|(_, &(vertices, _))| vertices > 0);
            assert_eq!(matches!(found, Irregular::Face(_)), faces);
            assert_eq!(matches!(found, Irregular::Vertex(_)), !faces && vertices);
            assert_eq!(read, if let Irregular::Face(face) = found { face + 1 } else { counts.faces });
        }
        (library, wrapped) => panic!("the library answers {library:?}, its wrapper {wrapped:?}"),
    }
    result
}

/// The solid with face `at` cut along a diagonal: two triangles, the first in its place, the second at the end.
fn cut(mut solid: Solid, at: usize) -> Solid {
    let face = solid.faces[at].clone();
    assert_eq!(face.len(), 4);
    solid.faces[at] = vec![face[0], face[1], face[2]];
    solid.faces.push(vec![face[0], face[2], face[3]]);
    solid
}

#[test]
fn tori_are_all_squares() {
    let mut random = Random::new(71);
    for (p, q) in [(3, 3), (3, 4), (5, 7), (12, 8), (16, 16), (17, 16), (3, 682), (32, 64)] {
        let torus = Solid::torus(p, q);
        assert_eq!(search(&Tables::of(&torus), &mut random), Ok((Irregular::None, p * q)));
        for places in Places::ALL {
            let tables = Tables::relabelled(&torus, places, &mut random);
            assert_eq!(search(&tables, &mut random), Ok((Irregular::None, p * q)));
        }
    }
    let two = Solid::torus(4, 5).with(Solid::torus(3, 7));
    assert_eq!(search(&Tables::of(&two), &mut random), Ok((Irregular::None, 41)));
}

#[test]
fn a_torus_with_a_face_cut() {
    let mut random = Random::new(72);
    for at in 0..30 {
        let tables = Tables::of(&cut(Solid::torus(5, 6), at));
        assert_eq!(search(&tables, &mut random), Ok((Irregular::Face(at), at + 1)));
        // two faces cut: the lower one
        let twice = Tables::of(&cut(cut(Solid::torus(5, 6), 29), at % 29));
        assert_eq!(search(&twice, &mut random), Ok((Irregular::Face(at % 29), at % 29 + 1)));
        // one face taken away: its neighbours have an edge without a reverse
        let mut open = Solid::torus(5, 6);
        open.faces.remove(at);
        assert!(matches!(search(&Tables::of(&open), &mut random), Err(Refusal { number: 11, .. })));
    }
    // the same in a mesh as large as they come
    let large = Tables::of(&cut(Solid::torus(31, 64), 1_983));
    assert_eq!(search(&large, &mut random), Ok((Irregular::Face(1_983), 1_984)));
}

#[test]
fn irregular_vertices_among_squares() {
    let mut random = Random::new(73);
    // every vertex of a cube has three corners
    assert_eq!(search(&Tables::of(&Solid::cube()), &mut random), Ok((Irregular::Vertex(0), 6)));
    // beside a torus: the cube's first vertex
    let behind = Solid::torus(3, 5).with(Solid::cube());
    assert_eq!(search(&Tables::of(&behind), &mut random), Ok((Irregular::Vertex(15), 21)));
    let before = Solid::cube().with(Solid::torus(3, 5));
    assert_eq!(search(&Tables::of(&before), &mut random), Ok((Irregular::Vertex(0), 21)));
    // a cube with its corners cut to triangles: every vertex has four corners, and a face is irregular
    assert!(matches!(search(&Tables::of(&Solid::cube().expanded()), &mut random), Ok((Irregular::Face(_), _))));
    // as many vertices as there may be, the last eight of them a cube's
    let most = Solid::torus(30, 68).with(Solid::cube());
    assert_eq!(search(&Tables::of(&most), &mut random), Ok((Irregular::Vertex(2_040), 2_046)));
    // numbers mixed: a cube and a torus, faces and vertices in any order
    for _ in 0..50 {
        let tables = Tables::relabelled(&behind, Places::Small, &mut random);
        assert!(matches!(search(&tables, &mut random), Ok((Irregular::Vertex(_), 21))));
    }
}

#[test]
fn the_last_face() {
    let mut random = Random::new(74);
    // a prism of three, five .. whose ends are moved to the end of the list
    for n in [3, 5, 6, 12] {
        let mut solid = Solid::prism(n);
        solid.faces.rotate_left(2);
        let tables = Tables::of(&solid);
        assert_eq!(search(&tables, &mut random), Ok((Irregular::Face(n), n + 1)));
        // one end in front, the other last
        solid.faces.rotate_right(1);
        assert_eq!(search(&Tables::of(&solid), &mut random), Ok((Irregular::Face(0), 1)));
    }
    // the pyramid of four: the one square last, then first
    let mut pyramid = Solid::pyramid(4);
    assert_eq!(search(&Tables::of(&pyramid), &mut random), Ok((Irregular::Face(1), 2)));
    pyramid.faces.rotate_left(1);
    assert_eq!(search(&Tables::of(&pyramid), &mut random), Ok((Irregular::Face(0), 1)));
    // the only irregular face, and the last: two squares of a torus made one face of six
    let mut hexagon = Solid::torus(4, 4);
    let (a, b) = (hexagon.faces.remove(15), hexagon.faces.remove(14));
    // the two share the edge from b's second corner to its third
    assert_eq!((a[0], a[3]), (b[1], b[2]));
    hexagon.faces.push(vec![b[0], b[1], a[1], a[2], b[2], b[3]]);
    assert_eq!(search(&Tables::of(&hexagon), &mut random), Ok((Irregular::Face(14), 15)));
}

#[test]
fn random_meshes() {
    let mut counts = [0; 3];
    each_case(2_000, 75, |_, random| {
        let tables = if random.once_in(3) {
            // squares but for a part now and then
            let mut solid = Solid::torus(3 + random.below(6), 3 + random.below(6));
            if random.once_in(2) {
                solid = solid.with(Solid::cube());
            }
            if random.once_in(3) {
                let at = random.below(9);
                solid = cut(solid, at);
            }
            Tables::relabelled(&solid, *random.pick(&Places::ALL), random)
        } else {
            random_tables(random)
        };
        match search(&tables, random) {
            Ok((Irregular::Face(_), _)) => counts[0] += 1,
            Ok((Irregular::Vertex(_), _)) => counts[1] += 1,
            Ok((Irregular::None, _)) => counts[2] += 1,
            Err(_) => {}
        }
    });
    println!("faces, vertices, none: {counts:?}");
    assert!(std::env::var_os("MAHUNOPI_CASE").is_some() || counts.iter().all(|&count| count > 0));
}

/// Each fault of 4 to 13, 27 and 28, alone and mixed with others: nothing but the place is written.
#[test]
fn every_refusal() {
    let mut seen = [0; 29];
    each_case(3_000, 76, |case, random| {
        let mut tables = random_tables(random);
        damage(&mut tables, DAMAGES[case as usize % DAMAGES.len()], random);
        if random.once_in(3) {
            damage(&mut tables, *random.pick(&DAMAGES), random);
        }
        if let Err(refusal) = search(&tables, random) {
            seen[refusal.number as usize] += 1;
        }
    });
    let refused = DAMAGES.map(|number| seen[number as usize]);
    println!("refused by {DAMAGES:?}: {refused:?}");
    assert!(std::env::var_os("MAHUNOPI_CASE").is_some() || refused.iter().all(|&n| n > 0), "{seen:?}");
    let empty = Tables::plain(vec![], vec![], vec![]);
    assert_eq!(search(&empty, &mut Random::new(77)), Err(Refusal { number: 4, place: 0 }));
}
