//! The safe wrapper by itself: faults and their words, borrowed meshes, threads, counts, and the stack that a call needs.

use std::num::NonZeroUsize;
use std::thread;

use mahunopi::{
    build, build_all, build_into, count_triangles, decode, floats_all, irregular, link, link_into, off, preview,
    preview_into, ranges, survey, survey_counted, tangents_into, touched, touched_into, triangles_into, Fault,
    Irregular, Mesh, MeshRef, Refusal, CALL_STACK, MAX_SIDES, NUMBERS_PER_CORNER, VERSION,
};

const CUBE: &[u8] = include_bytes!("../../../meshes/cube.dms");
const TORUS: &[u8] = include_bytes!("../../../meshes/torus.dms");

/// A torus of p times q four-sided faces, flat: only its lists matter here.
fn torus(p: usize, q: usize) -> Mesh {
    let at = |i: usize, j: usize| ((i % p) * q + j % q) as u16;
    let coordinates = (0..p * q).flat_map(|v| [(v / q) as i32, (v % q) as i32, (v % 7) as i32]).collect();
    let corners = (0..p * q)
        .map(|f| (f / q, f % q))
        .flat_map(|(i, j)| [at(i, j), at(i, j + 1), at(i + 1, j + 1), at(i + 1, j)])
        .collect();
    Mesh::new(coordinates, vec![4; p * q], corners)
}

/// The file of a mesh in version 2.
fn file_of(mesh: &Mesh) -> Vec<u8> {
    let mut bytes = b"DMS".to_vec();
    for count in [2, mesh.coordinates.len() / 3, mesh.sides.len(), mesh.corners.len()] {
        bytes.extend((count as u16).to_le_bytes());
    }
    bytes.extend(mesh.coordinates.iter().flat_map(|c| c.to_le_bytes()));
    bytes.extend(&mesh.sides);
    bytes.extend(mesh.corners.iter().flat_map(|v| v.to_le_bytes()));
    bytes.extend(&mesh.sharpness);
    bytes
}

fn text_of(mesh: &Mesh) -> String {
    let mut text = format!("OFF {} {} 0", mesh.coordinates.len() / 3, mesh.sides.len());
    text.extend(mesh.coordinates.iter().map(|c| format!(" {c}")));
    text.extend(mesh.corners.chunks(4).map(|face| format!("\n4 {} {} {} {}", face[0], face[1], face[2], face[3])));
    text
}

#[test]
fn every_fault_has_a_number_and_one_line_of_words() {
    let numbers: Vec<u32> = Fault::ALL.iter().map(|fault| fault.number()).collect();
    // every number from 1 on, and last the one of a list that is too short
    let last = numbers.len() as u32 - 1;
    assert_eq!(numbers, (1..=last).chain([255]).collect::<Vec<u32>>());
    for &fault in Fault::ALL {
        assert_eq!(Fault::of_number(fault.number()), Some(fault));
        assert!(!fault.words().is_empty() && !fault.words().contains('\n'));
        let line = Refusal::new(fault, 5).to_string();
        let at = fault.place().map_or(String::new(), |place| format!(" at {place} 5"));
        assert_eq!(line, format!("refused {}{at}: {}", fault.number(), fault.words()));
        assert_eq!(fault.place().is_some(), ![1, 2, 3, 4, 21, 24, 37, 38].contains(&fault.number()), "{line}");
    }
    for number in [0, last + 1, 254, 256, u32::MAX] {
        assert_eq!(Fault::of_number(number), None);
    }
}

/// The header and the wrapper name the same numbers in the same way, and have the same limits.
#[test]
fn the_header_has_the_same_names() {
    let header = include_str!("../../../include/mahunopi.h");
    for &fault in Fault::ALL {
        let mut name = String::new();
        for letter in format!("{fault:?}").chars() {
            if letter.is_uppercase() && !name.is_empty() {
                name.push('_');
            }
            name.push(letter.to_ascii_uppercase());
        }
        let entry = format!("MAHUNOPI_{name} = {}", fault.number());
        assert!(header.contains(&entry), "the header has no `{entry}`");
    }
    let limits = [
        ("MAX_VERTICES", mahunopi::MAX_VERTICES),
        ("MAX_FACES", mahunopi::MAX_FACES),
        ("MAX_CORNERS", mahunopi::MAX_CORNERS),
        ("MAX_SIDES", MAX_SIDES),
        ("MAX_SHARPNESS", usize::from(mahunopi::MAX_SHARPNESS)),
        ("PLAIN_SHARPNESS", usize::from(mahunopi::PLAIN_SHARPNESS)),
        ("NUMBERS_PER_CORNER", NUMBERS_PER_CORNER),
        ("MAX_BODIES", mahunopi::MAX_BODIES),
        ("SUN", usize::from(mahunopi::SUN)),
        ("PAGE_NUMBERS", mahunopi::PAGE_NUMBERS),
        ("MAX_PAGE_MESHES", mahunopi::MAX_PAGE_MESHES as usize),
        ("CALL_STACK", CALL_STACK),
    ];
    for (name, limit) in limits {
        let line = format!("#define MAHUNOPI_{name} {limit}\n");
        assert!(header.contains(&line), "the header has no `{}`", line.trim());
    }
}

#[test]
fn a_borrowed_mesh_is_the_owned_one() {
    let mesh = decode(CUBE).unwrap();
    let view = MeshRef::new(&mesh.coordinates, &mesh.sides, &mesh.corners);
    assert_eq!((view, view.to_mesh()), (mesh.view(), mesh.clone()));
    let links = link(view).unwrap();
    assert_eq!(link(&mesh), Ok(links.clone()));
    assert_eq!(build(view, &links, 3, 4), build(&mesh, &links, 3, 4));
    let mut table = vec![0; 24];
    link_into(view, &mut table).unwrap();
    assert_eq!(table, links);
    let mut output = vec![0; NUMBERS_PER_CORNER];
    build_into(view, &links, 7, 1, &mut output).unwrap();
    assert_eq!(Ok(output), build(&mesh, &links, 7, 1));
}

/// Three lists have sharpness 8 and 8, and other sharpness gives other points; the link table does not depend on it.
#[test]
fn sharpness_of_a_mesh() {
    let mesh = decode(CUBE).unwrap();
    assert_eq!(mesh.sharpness, [8; 48]);
    let again = Mesh::new(mesh.coordinates.clone(), mesh.sides.clone(), mesh.corners.clone());
    assert_eq!(again, mesh);
    let links = link(&mesh).unwrap();
    let soft = build(&mesh, &links, 0, 24).unwrap();
    let numbers: Vec<u8> = (0..48).map(|i| 7 * i % 17).collect();
    let sharp = mesh.clone().with_sharpness(numbers.clone());
    assert_eq!(mesh.view().with_sharpness(&numbers), sharp.view());
    assert_eq!(mesh.view().with_sharpness(&numbers).to_mesh(), sharp);
    assert_eq!(link(&sharp).unwrap(), links);
    assert_ne!(build(&sharp, &links, 0, 24).unwrap(), soft);
    assert_eq!(build(sharp.view(), &links, 0, 24), build(&sharp, &links, 0, 24));
    assert_eq!(build_all(&sharp, &links, None), build(&sharp, &links, 0, 24));
    // 16 and 16 throughout: the ends E0 and E2 of corner 0 are the vertex and the middle of the face, in ticks
    let crisp = build(&mesh.clone().with_sharpness(vec![16; 48]), &links, 0, 1).unwrap();
    assert_eq!((&crisp[..3], &crisp[72..75]), (&[768, 768, 768][..], &[0, 0, 768][..]));
    assert_eq!(decode(&file_of(&sharp)).unwrap(), sharp);
    assert_eq!(irregular(&sharp), irregular(&mesh));

    let refused = |sharpness: Vec<u8>| link(&mesh.clone().with_sharpness(sharpness)).unwrap_err();
    assert_eq!(refused(vec![8; 47]), Refusal::new(Fault::BadSharpnessLength, 47));
    assert_eq!(refused(vec![]), Refusal::new(Fault::BadSharpnessLength, 0));
    let mut beyond = numbers;
    beyond[5] = 17;
    assert_eq!(refused(beyond), Refusal::new(Fault::BadSharpness, 5));
    assert_eq!(
        refused(vec![17; 48]).to_string(),
        "refused 28 at position in the sharpness list 0: a sharpness number is above 16"
    );
}

/// The file in both versions.
#[test]
fn versions_of_a_file() {
    let mesh = decode(CUBE).unwrap();
    let mut file = file_of(&mesh);
    assert_eq!(file.len(), CUBE.len() + 48);
    assert_eq!(decode(&file), Ok(mesh.clone()));
    assert_eq!(survey(&file), survey(CUBE));
    // a version 1 file that carries the bytes, and a version 2 file without them
    let [mut carrying, mut lacking] = [file.clone(), CUBE.to_vec()];
    carrying[3] = 1;
    lacking[3] = 2;
    for bytes in [&carrying, &lacking, &file[..file.len() - 1].to_vec()] {
        assert_eq!(decode(bytes), Err(Refusal::new(Fault::BadFileLength, 0)));
        assert_eq!(survey(bytes), Err(Refusal::new(Fault::BadFileLength, 0)));
    }
    for version in [0, 3, 255] {
        file[3] = version;
        assert_eq!(decode(&file), Err(Refusal::new(Fault::BadVersion, 0)));
    }
    file[3] = 2;
    file[CUBE.len() + 31] = 17;
    assert_eq!(decode(&file), Err(Refusal::new(Fault::BadSharpness, 31)));
    assert_eq!(survey(&file), Err(Refusal::new(Fault::BadSharpness, 31)));
}

#[test]
fn threads_build_the_same_numbers() {
    for (p, q) in [(3, 4), (11, 12), (16, 32), (23, 29), (32, 64)] {
        let mesh = torus(p, q);
        let links = link(&mesh).unwrap();
        let whole = build(&mesh, &links, 0, mesh.corners.len()).unwrap();
        for threads in [1, 2, 3, 7, 16, 1_000] {
            assert!(build_all(&mesh, &links, NonZeroUsize::new(threads)).unwrap() == whole, "{p} {q} {threads}");
        }
        assert!(build_all(&mesh, &links, None).unwrap() == whole);
    }
}

#[test]
fn threads_answer_the_same_refusal() {
    let mesh = torus(32, 64);
    let links = link(&mesh).unwrap();
    let many = NonZeroUsize::new(4);
    let mut wrong = links.clone();
    wrong[7_000] ^= 1;
    assert_eq!(build_all(&mesh, &wrong, many), Err(Refusal::new(Fault::BadLink, 7_000)));
    assert_eq!(build_all(&mesh, &links[1..], many), Err(Refusal::new(Fault::BadLinkTableLength, 8_191)));
    let mut beyond = mesh.clone();
    beyond.sharpness[16_000] = 17;
    assert_eq!(build_all(&beyond, &links, many), Err(Refusal::new(Fault::BadSharpness, 16_000)));
    beyond.coordinates[100] = 65_537;
    assert_eq!(build_all(&beyond, &links, many), Err(Refusal::new(Fault::BadCoordinate, 100)));
    beyond.sharpness.pop();
    assert_eq!(build_all(&beyond, &links, many), Err(Refusal::new(Fault::BadSharpnessLength, 16_383)));
    beyond.corners.push(0);
    assert_eq!(build_all(&beyond, &links, many), Err(Refusal::new(Fault::BadCounts, 0)));
}

#[test]
fn counts_of_files() {
    let counts = survey(TORUS).unwrap();
    assert_eq!((counts.vertices, counts.faces, counts.corners), (96, 96, 384));
    for m in 0..=MAX_SIDES + 3 {
        let asked = if m == 4 { 96 } else { 0 };
        assert_eq!((counts.vertices_with(m), counts.faces_with(m)), (asked, asked));
    }
    assert_eq!(survey(CUBE).unwrap().to_string(), "mesh 8 6 24\n3 8 0\n4 0 6\n");
    assert_eq!(survey_counted(CUBE, 1 << 40), Err(Refusal::new(Fault::BadFileLength, 0)));
    assert_eq!(survey(&CUBE[..100]), Err(Refusal::new(Fault::BadFileLength, 0)));
    assert_eq!(survey(&CUBE[1..]), Err(Refusal::new(Fault::BadMark, 0)));
}

/// What is irregular, with the kinds that the header names, and as the program `squares` prints it.
#[test]
fn irregular_faces_and_vertices() {
    let header = include_str!("../../../include/mahunopi.h");
    for line in ["MAHUNOPI_NO_IRREGULAR = 0,", "MAHUNOPI_IRREGULAR_FACE = 1,", "MAHUNOPI_IRREGULAR_VERTEX = 2\n"] {
        assert!(header.contains(line), "the header has no `{line}`");
    }
    let cube = decode(CUBE).unwrap();
    assert_eq!(irregular(&cube), Ok(Irregular::Vertex { vertex: 0, sides_read: 6 }));
    assert_eq!(irregular(cube.view()).unwrap().to_string(), "vertex 0 read 6");
    assert_eq!(irregular(&torus(5, 7)).unwrap().to_string(), "none read 35");
    // face 3 of a torus as two triangles
    let mut cut = torus(5, 7);
    let [a, b, c, d] = [12, 13, 14, 15].map(|corner| cut.corners[corner]);
    cut.corners.splice(12..16, [a, b, c, a, c, d]);
    cut.sides.splice(3..4, [3, 3]);
    let mut cut = Mesh::new(cut.coordinates, cut.sides, cut.corners);
    assert_eq!(irregular(&cut), Ok(Irregular::Face { face: 3, sides_read: 4 }));
    assert_eq!(irregular(&cut).unwrap().to_string(), "face 3 read 4");
    cut.sides[3] = 2;
    assert_eq!(irregular(&cut), Err(Refusal::new(Fault::BadSideCount, 3)));
}

/// Each call on a largest mesh, on a thread with the stack that the header names.
#[test]
fn the_stack_that_a_call_needs() {
    let mesh = torus(32, 64);
    let bytes = file_of(&mesh);
    let text = text_of(&mesh);
    let whole = vec![0; NUMBERS_PER_CORNER * 8_192];
    let call = move || {
        let links = link(&mesh).unwrap();
        let mut output = whole;
        build_into(&mesh, &links, 0, 8_192, &mut output).unwrap();
        assert!(decode(&bytes).unwrap() == mesh);
        assert!(off(text.as_bytes()).unwrap() == mesh);
        assert_eq!(survey(&bytes).unwrap().corners, 8_192);
        assert_eq!(irregular(&mesh), Ok(Irregular::None { sides_read: 2_048 }));
        preview_into(&mesh, &links, 0, 8_192, 2_047, [1, 2, 3], &mut output).unwrap();
        assert_eq!(touched(&mesh, 2_047).unwrap().len(), 36);
        floats_all(&output).unwrap();
        let lengths = count_triangles(&mesh, &links, &[2; 8_192], 0, 8_192).unwrap();
        let (mut points, mut three) = (vec![0; lengths.points], vec![0; lengths.triangles]);
        triangles_into(&mesh, &links, &[2; 8_192], 0, 8_192, &mut points, &mut three).unwrap();
        tangents_into(&mesh, &links, &[2; 8_192], 0, 8_192, &mut vec![0; 2 * lengths.points]).unwrap();
    };
    thread::Builder::new().stack_size(CALL_STACK).spawn(call).unwrap().join().unwrap();
}

#[test]
fn calls_run_at_the_same_time() {
    let mesh = torus(23, 29);
    let links = link(&mesh).unwrap();
    let whole = build(&mesh, &links, 0, links.len()).unwrap();
    thread::scope(|scope| {
        for start in 0..8 {
            let (mesh, links, whole) = (&mesh, &links, &whole);
            scope.spawn(move || {
                for first in (start..links.len()).step_by(97) {
                    let part = build(mesh, links, first, 1).unwrap();
                    assert!(part == whole[NUMBERS_PER_CORNER * first..][..NUMBERS_PER_CORNER]);
                    assert!(&link(mesh).unwrap() == links);
                }
            });
        }
    });
}

/// A drag: what the preview of the touched corners' ranges writes over the old points is what building writes after the
/// move, and the corners between are as they were.
#[test]
fn a_drag_by_ranges() {
    let mut mesh = torus(20, 30);
    let links = link(&mesh).unwrap();
    let mut points = build(&mesh, &links, 0, 2_400).unwrap();
    for (vertex, gap) in [(0, 0), (29, 0), (317, 3), (599, 200), (0, 2_400)] {
        let to = [vertex as i32, -7, 40];
        let corners = touched(&mesh, vertex).unwrap();
        assert_eq!(corners.len(), 36);
        let mut rebuilt = 0;
        for range in ranges(&corners, gap) {
            rebuilt += range.len();
            let part = &mut points[NUMBERS_PER_CORNER * range.start..NUMBERS_PER_CORNER * range.end];
            preview_into(&mesh, &links, range.start, range.len(), vertex, to, part).unwrap();
        }
        assert!(gap > 0 || rebuilt == 36, "{rebuilt} corners are rebuilt");
        assert_eq!(preview(&mesh, &links, 0, 2_400, vertex, to).unwrap(), points);
        mesh.coordinates[3 * vertex..3 * vertex + 3].copy_from_slice(&to);
        assert_eq!(build(&mesh, &links, 0, 2_400).unwrap(), points);
    }
    assert_eq!(ranges(&[], 5), []);
}

#[test]
fn one_version_in_header_wrapper_and_package() {
    let header = include_str!("../../../include/mahunopi.h");
    assert!(header.contains(&format!("#define MAHUNOPI_VERSION {VERSION}\n")));
    assert_eq!(env!("CARGO_PKG_VERSION"), format!("{VERSION}.0.0"));
    for field in [env!("CARGO_PKG_LICENSE"), env!("CARGO_PKG_DESCRIPTION"), env!("CARGO_PKG_REPOSITORY")] {
        assert!(!field.is_empty());
    }
    assert!(include_str!("../Cargo.toml").contains("\nreadme = \"../README.md\"\n"));
}

#[test]
fn marks_of_another_length() {
    let mesh = decode(CUBE).unwrap();
    for length in [0, 23, 25, 8_192] {
        let mut marks = vec![9; length];
        assert_eq!(touched_into(&mesh, 7, &mut marks), Err(Refusal::new(Fault::LentTooShort, 24)));
        assert!(marks.iter().all(|&mark| mark == 9));
    }
    for vertex in [8, 9, usize::MAX / 3, usize::MAX] {
        let refusal = Refusal::new(Fault::NoVertexToMove, vertex as u64);
        assert_eq!(touched(&mesh, vertex), Err(refusal));
        assert_eq!(preview(&mesh, &[], 0, 0, vertex, [0; 3]), Err(refusal));
    }
}
