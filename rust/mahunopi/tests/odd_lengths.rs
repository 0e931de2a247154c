//! Null and empty spaces, sizes of zero and lengths beyond 32 bits meet a refusal and nothing else, for the library's
//! own functions and for the safe ones.

use std::ptr::{null, null_mut};

use mahunopi::{
    build, build_all, count_triangles, decode, decode_into, link, raw, survey, survey_counted, triangles,
    triangles_all, triangles_into, Fault, Mesh, MeshRef, Refusal, MAX_SIDES,
};

const BEYOND: usize = 1 << 32;
const UNTOUCHED: u64 = 0x1234_5678_9abc_def0;

fn cube() -> Mesh {
    decode(include_bytes!("../../../meshes/cube.dms")).unwrap()
}

/// Linking of the cube with these lengths in the place of its own. Every list has its own entries only: a length that
/// names more has to be refused before they are looked at.
fn link_with(coordinates: usize, sides: usize, corners: usize, sharpness: usize, links: usize) -> (u32, u64) {
    let mesh = cube();
    let mut table = [7; 24];
    let mut place = UNTOUCHED;
    let number = unsafe {
        raw::mahunopi_link(
            mesh.coordinates.as_ptr(),
            coordinates,
            mesh.sides.as_ptr(),
            sides,
            mesh.corners.as_ptr(),
            corners,
            mesh.sharpness.as_ptr(),
            sharpness,
            table.as_mut_ptr(),
            links,
            &mut place,
        )
    };
    assert_eq!(table == [7; 24], number != 0);
    (number, place)
}

/// The search of the cube with these lengths, where null stands for no entries: nothing but the place changes by a refusal.
fn irregular_with(coordinates: usize, sides: usize, corners: usize, sharpness: usize) -> (u32, u64) {
    let mesh = cube();
    let (mut kind, mut found, mut read, mut place) = (7, UNTOUCHED, UNTOUCHED, UNTOUCHED);
    let number = unsafe {
        raw::mahunopi_irregular(
            if coordinates == 0 { null() } else { mesh.coordinates.as_ptr() },
            coordinates,
            if sides == 0 { null() } else { mesh.sides.as_ptr() },
            sides,
            if corners == 0 { null() } else { mesh.corners.as_ptr() },
            corners,
            if sharpness == 0 { null() } else { mesh.sharpness.as_ptr() },
            sharpness,
            &mut kind,
            &mut found,
            &mut read,
            &mut place,
        )
    };
    let told = if number == 0 { (2, 0, 6) } else { (7, UNTOUCHED, UNTOUCHED) };
    assert_eq!((kind, found, read), told);
    (number, place)
}

/// Building of the cube with these lengths.
fn build_with(links: usize, first: usize, count: usize, output: usize) -> (u32, u64) {
    let mesh = cube();
    let table = link(&mesh).unwrap();
    let mut numbers = [7; 123];
    let mut place = UNTOUCHED;
    let number = unsafe {
        raw::mahunopi_build(
            mesh.coordinates.as_ptr(),
            24,
            mesh.sides.as_ptr(),
            6,
            mesh.corners.as_ptr(),
            24,
            mesh.sharpness.as_ptr(),
            48,
            table.as_ptr(),
            links,
            first,
            count,
            numbers.as_mut_ptr(),
            output,
            &mut place,
        )
    };
    assert_eq!(numbers == [7; 123], number != 0);
    (number, place)
}

/// The triangles of the cube's corners with these lengths, all at level 1, where null stands for no entries: nothing but the
/// place changes by a refusal. Every list has its own entries only: a length that names more has to be refused before they
/// are looked at.
fn triangles_with([links, levels]: [usize; 2], [first, count]: [usize; 2], [room, space]: [usize; 2]) -> (u32, u64) {
    let mesh = cube();
    let (table, ones) = (link(&mesh).unwrap(), [1; 24]);
    let (mut points, mut three) = ([7; 150], [7; 288]);
    let [mut point_numbers, mut triangle_numbers, mut place] = [UNTOUCHED; 3];
    let number = unsafe {
        raw::mahunopi_triangles(
            mesh.coordinates.as_ptr(),
            24,
            mesh.sides.as_ptr(),
            6,
            mesh.corners.as_ptr(),
            24,
            mesh.sharpness.as_ptr(),
            48,
            if links == 0 { null() } else { table.as_ptr() },
            links,
            if levels == 0 { null() } else { ones.as_ptr() },
            levels,
            first,
            count,
            if room == 0 { null_mut() } else { points.as_mut_ptr() },
            room,
            if space == 0 { null_mut() } else { three.as_mut_ptr() },
            space,
            &mut point_numbers,
            &mut triangle_numbers,
            &mut place,
        )
    };
    assert_eq!((points == [7; 150], three == [7; 288]), (number != 0, number != 0));
    assert_eq!((point_numbers, triangle_numbers) == (UNTOUCHED, UNTOUCHED), number != 0);
    let [mut counted, mut counted_three, mut other] = [UNTOUCHED; 3];
    let counts = unsafe {
        raw::mahunopi_count_triangles(
            mesh.coordinates.as_ptr(),
            24,
            mesh.sides.as_ptr(),
            6,
            mesh.corners.as_ptr(),
            24,
            mesh.sharpness.as_ptr(),
            48,
            if links == 0 { null() } else { table.as_ptr() },
            links,
            if levels == 0 { null() } else { ones.as_ptr() },
            levels,
            first,
            count,
            &mut counted,
            &mut counted_three,
            &mut other,
        )
    };
    if number == 255 {
        assert_eq!((counts, other), (0, UNTOUCHED));
        assert_eq!(place, if (room as u64) < counted { counted } else { counted_three });
    } else {
        assert_eq!((counts, other, counted, counted_three), (number, place, point_numbers, triangle_numbers));
    }
    (number, place)
}

#[test]
fn triangles_of_odd_lengths() {
    let whole = [0, 24];
    assert_eq!(triangles_with([24, 24], whole, [150, 288]), (0, UNTOUCHED));
    assert_eq!(triangles_with([0, 0], [0, 0], [0, 0]), (14, 0));
    assert_eq!(triangles_with([24, 0], [0, 0], [0, 0]), (16, 0));
    assert_eq!(triangles_with([24, 0], whole, [0, 0]), (39, 0));
    assert_eq!(triangles_with([24, 24], whole, [0, 0]), (255, 150));
    assert_eq!(triangles_with([24, 24], whole, [150, 0]), (255, 288));
    assert_eq!(triangles_with([24, 24], whole, [149, 287]), (255, 150));
    assert_eq!(triangles_with([24, 24], whole, [150, 287]), (255, 288));
    for odd in [1, 23, 25, BEYOND - 1, BEYOND, BEYOND + 24, 3 << 32, usize::MAX / 8] {
        assert_eq!(triangles_with([odd, 24], whole, [150, 288]), (14, odd as u64));
        assert_eq!(triangles_with([24, odd], whole, [150, 288]), (39, odd as u64));
        assert_eq!(triangles_with([24, odd], [0, 0], [150, 288]), (16, 0));
    }
    for far in [25, BEYOND, BEYOND + 1, usize::MAX] {
        assert_eq!(triangles_with([24, 24], [far, 1], [150, 288]), (16, far as u64));
        assert_eq!(triangles_with([24, 24], [1, far], [150, 288]), (16, 1));
        assert_eq!(triangles_with([24, 24], [far, far], [150, 288]), (16, far as u64));
    }
    let refusal = |number: u32, place: u64| Refusal::new(Fault::of_number(number).unwrap(), place);
    let nothing = Mesh::default();
    assert_eq!(count_triangles(&nothing, &[], &[], 0, 0), Err(refusal(4, 0)));
    assert_eq!(triangles(&nothing, &[], &[]), Err(refusal(4, 0)));
    assert_eq!(triangles_all(&nothing, &[], &[], None), Err(refusal(4, 0)));
    let mesh = cube();
    let links = link(&mesh).unwrap();
    assert_eq!(triangles_into(&mesh, &links, &[1; 24], 0, 24, &mut [], &mut []), Err(refusal(255, 150)));
    assert_eq!(triangles(&mesh, &links, &[1; 23]), Err(refusal(39, 23)));
    let mut levels = [1; 24];
    levels[5] = 17;
    assert_eq!(triangles_all(&mesh, &links, &levels, None), Err(refusal(40, 5)));
    let many = MeshRef::new(&mesh.coordinates, &mesh.sides, &[0; 8_193]);
    assert_eq!(triangles_all(many, &links, &levels, None), Err(refusal(4, 0)));
}

#[test]
fn lengths_beyond_32_bits() {
    assert_eq!(link_with(24, 6, 24, 48, 24), (0, UNTOUCHED));
    assert_eq!(irregular_with(24, 6, 24, 48), (0, UNTOUCHED));
    for beyond in [BEYOND - 1, BEYOND, BEYOND + 24, BEYOND + 48, 3 << 32, usize::MAX / 8] {
        assert_eq!(link_with(beyond, 6, 24, 48, 24), (4, 0));
        assert_eq!(link_with(BEYOND + 24, 6, 24, 48, beyond), (4, 0));
        assert_eq!(link_with(24, beyond, 24, 48, 24), (4, 0));
        assert_eq!(irregular_with(beyond, 6, 24, 48), (4, 0));
        assert_eq!(irregular_with(24, beyond, 24, 48), (4, 0));
        assert_eq!(irregular_with(24, 6, beyond, 48), (4, 0));
        assert_eq!(irregular_with(24, 6, 24, beyond), (27, beyond as u64));
        assert_eq!(link_with(24, 6, beyond, 48, 24), (4, 0));
        assert_eq!(link_with(24, 6, beyond, beyond, 24), (4, 0));
        assert_eq!(link_with(24, 6, 24, beyond, beyond), (27, beyond as u64));
        assert_eq!(link_with(24, 6, 24, 48, beyond), (14, beyond as u64));
        assert_eq!(build_with(beyond, 0, 1, 123), (14, beyond as u64));
        assert_eq!(build_with(24, 0, 1, beyond), (17, beyond as u64));
    }
    assert_eq!(link_with(24, BEYOND + 6, 24, 48, 24), (4, 0));
}

#[test]
fn ranges_beyond_every_width() {
    assert_eq!(build_with(24, 23, 1, 123), (0, UNTOUCHED));
    let far = [24, 65_536, BEYOND - 1, BEYOND, BEYOND + 1, usize::MAX - 1, usize::MAX];
    for first in far {
        for count in [0, 1, 2, 24] {
            assert_eq!(build_with(24, first, count, 123), (16, first as u64));
        }
        for count in far {
            assert_eq!(build_with(24, first, count, 123), (16, first as u64));
        }
    }
    for count in far.into_iter().skip(1) {
        assert_eq!(build_with(24, 0, count, 123), (16, 0));
        assert_eq!(build_with(24, 1, count, 0), (16, 1));
    }
    assert_eq!(build_with(24, 5, 0, 0), (16, 5));
    assert_eq!(build_with(24, 5, 1, 0), (17, 0));
    assert_eq!(build_with(24, 5, 1, 122), (17, 122));
    assert_eq!(build_with(0, 5, 1, 123), (14, 0));
}

#[test]
fn null_spaces() {
    for (c, s, v) in [(0, 0, 0), (0, 6, 24), (24, 0, 24), (24, 6, 0)] {
        assert_eq!(irregular_with(c, s, v, 48), (4, 0));
        assert_eq!(irregular_with(c, s, v, 0), (4, 0));
    }
    assert_eq!(irregular_with(24, 6, 24, 0), (27, 0));
    let mesh = cube();
    let mut place = UNTOUCHED;
    unsafe {
        let nothing = raw::mahunopi_link(null(), 0, null(), 0, null(), 0, null(), 0, null_mut(), 0, &mut place);
        assert_eq!((nothing, place), (4, 0));
        place = UNTOUCHED;
        let (coordinates, sides, corners) = (mesh.coordinates.as_ptr(), mesh.sides.as_ptr(), mesh.corners.as_ptr());
        let sharpness = mesh.sharpness.as_ptr();
        let no_table =
            raw::mahunopi_link(coordinates, 24, sides, 6, corners, 24, sharpness, 48, null_mut(), 0, &mut place);
        assert_eq!((no_table, place), (14, 0));
        place = UNTOUCHED;
        let no_sharpness =
            raw::mahunopi_link(coordinates, 24, sides, 6, corners, 24, null(), 0, null_mut(), 0, &mut place);
        assert_eq!((no_sharpness, place), (27, 0));
        for (c, s, v) in [(0, 6, 24), (24, 0, 24), (24, 6, 0)] {
            place = UNTOUCHED;
            let number = raw::mahunopi_link(
                if c == 0 { null() } else { coordinates },
                c,
                if s == 0 { null() } else { sides },
                s,
                if v == 0 { null() } else { corners },
                v,
                null(),
                0,
                null_mut(),
                0,
                &mut place,
            );
            assert_eq!((number, place), (4, 0));
        }
        place = UNTOUCHED;
        let nothing =
            raw::mahunopi_build(null(), 0, null(), 0, null(), 0, null(), 0, null(), 0, 0, 0, null_mut(), 0, &mut place);
        assert_eq!((nothing, place), (4, 0));
        let links = link(&mesh).unwrap();
        place = UNTOUCHED;
        let no_output = raw::mahunopi_build(
            coordinates,
            24,
            sides,
            6,
            corners,
            24,
            sharpness,
            48,
            links.as_ptr(),
            24,
            3,
            1,
            null_mut(),
            0,
            &mut place,
        );
        assert_eq!((no_output, place), (17, 0));
    }
}

/// The answer of reading `bytes` as a file of `length` bytes into no space at all.
fn decode_nowhere(bytes: &[u8], length: u64) -> (u32, u64, [u64; 4]) {
    let mut place = UNTOUCHED;
    let mut lengths = [UNTOUCHED; 4];
    let [coordinates, sides, corners, sharpness] = &mut lengths;
    let number = unsafe {
        raw::mahunopi_decode(
            if bytes.is_empty() { null() } else { bytes.as_ptr() },
            bytes.len(),
            length,
            null_mut(),
            0,
            null_mut(),
            0,
            null_mut(),
            0,
            null_mut(),
            0,
            coordinates,
            sides,
            corners,
            sharpness,
            &mut place,
        )
    };
    (number, place, lengths)
}

#[test]
fn files_of_odd_lengths() {
    let kept = [UNTOUCHED; 4];
    let mesh = cube();
    let mut file = b"DMS\x01\x00\x08\x00\x06\x00\x18\x00".to_vec();
    file.extend(mesh.coordinates.iter().flat_map(|c| c.to_le_bytes()));
    file.extend(&mesh.sides);
    file.extend(mesh.corners.iter().flat_map(|v| v.to_le_bytes()));
    let length = file.len() as u64;
    assert_eq!(decode(&file), Ok(mesh));
    // no space to write to
    assert_eq!(decode_nowhere(&file, length), (255, 24, kept));
    // lengths that are another number's in 32 bits, or in any width
    for far in [1 << 32, (1 << 32) + length, u64::MAX, u64::MAX - 10] {
        assert_eq!(decode_nowhere(&file, far), (3, 0, kept));
        assert_eq!(decode_nowhere(&[], far), (1, 0, kept));
        assert_eq!(decode_nowhere(&file[..10], far), (1, 0, kept));
    }
    for short in 0..11 {
        assert_eq!(decode_nowhere(&file[..short], short as u64), (1, 0, kept));
        // more bytes than the file has: 01 does not say which of 1 to 3 it is
        let (number, place, lengths) = decode_nowhere(&file, short as u64);
        assert!((1..=3).contains(&number));
        assert_eq!((place, lengths), (0, kept));
    }
    // bytes that are not held, and bytes after the file's end
    assert_eq!(decode_nowhere(&file[..100], length), (3, 0, kept));
    file.extend([1, 2, 3]);
    assert_eq!(decode_nowhere(&file, length), (255, 24, kept));
    assert_eq!(decode_nowhere(&file, length + 3), (3, 0, kept));
    // version 2: the length of version 1 and a wrapped one are 3, and no sharpness is held
    file.truncate(length as usize);
    file[3] = 2;
    for far in [length, length + 47, length + 49, (1 << 32) + length + 48, u64::MAX] {
        assert_eq!(decode_nowhere(&file, far), (3, 0, kept));
    }
    assert_eq!(decode_nowhere(&file, length + 48), (3, 0, kept));
    file.extend([17; 48]);
    assert_eq!(decode_nowhere(&file, length + 48), (28, 0, kept));
}

/// Only the fourth lent list is too short.
#[test]
fn no_room_for_sharpness() {
    let file = include_bytes!("../../../meshes/cube.dms");
    for space in [0, 47, 48, 49] {
        let (mut coordinates, mut sides, mut corners) = ([7; 24], [7; 6], [7; 24]);
        let mut sharpness = vec![7; space];
        let length = file.len() as u64;
        let answer = decode_into(file, length, &mut coordinates, &mut sides, &mut corners, &mut sharpness);
        if space < 48 {
            assert_eq!(answer, Err(Refusal::new(Fault::LentTooShort, 48)));
            assert_eq!((coordinates, sides, corners), ([7; 24], [7; 6], [7; 24]));
            assert!(sharpness.iter().all(|&entry| entry == 7));
        } else {
            let lengths = answer.unwrap();
            assert_eq!((lengths.coordinates, lengths.sides, lengths.corners, lengths.sharpness), (24, 6, 24, 48));
            assert!(sharpness[..48].iter().all(|&entry| entry == 8) && sharpness[48..].iter().all(|&entry| entry == 7));
        }
    }
}

#[test]
fn counts_into_odd_lengths() {
    let file = include_bytes!("../../../meshes/cube.dms");
    let survey_into = |first: &mut [u16], second: &mut [u16]| {
        let mut place = UNTOUCHED;
        let mut totals = [UNTOUCHED; 3];
        let [vertices, faces, corners] = &mut totals;
        let pointer = |list: &mut [u16]| if list.is_empty() { null_mut() } else { list.as_mut_ptr() };
        let number = unsafe {
            raw::mahunopi_survey(
                file.as_ptr(),
                file.len(),
                file.len() as u64,
                vertices,
                faces,
                corners,
                pointer(first),
                first.len(),
                pointer(second),
                second.len(),
                &mut place,
            )
        };
        (number, place, totals)
    };
    // room for no m, for all but the last, for each, for more
    const ALL: usize = MAX_SIDES + 1;
    for (first, second) in [(0, 0), (0, ALL), (ALL, 0), (ALL - 1, ALL), (ALL, ALL - 1), (ALL, ALL), (40, ALL + 1)] {
        let (mut vertices_with, mut faces_with) = (vec![7; first], vec![7; second]);
        let answer = survey_into(&mut vertices_with, &mut faces_with);
        if first < ALL || second < ALL {
            assert_eq!(answer, (255, 17, [UNTOUCHED; 3]));
            assert!(vertices_with.iter().chain(&faces_with).all(|&entry| entry == 7));
        } else {
            assert_eq!(answer, (0, UNTOUCHED, [8, 6, 24]));
            let asked = |list: &[u16], m: usize, count: u16| {
                list.iter().enumerate().all(|(at, &n)| {
                    n == if at == m {
                        count
                    } else if at < ALL {
                        0
                    } else {
                        7
                    }
                })
            };
            assert!(asked(&vertices_with, 3, 8) && asked(&faces_with, 4, 6));
        }
    }
}

#[test]
fn safe_functions_on_odd_lengths() {
    let refusal = |number: u32, place: u64| Refusal::new(Fault::of_number(number).unwrap(), place);
    let nothing = Mesh::default();
    assert_eq!(link(&nothing), Err(refusal(4, 0)));
    assert_eq!(build(&nothing, &[], 0, 0), Err(refusal(4, 0)));
    assert_eq!(build_all(&nothing, &[], None), Err(refusal(4, 0)));
    assert_eq!(decode(&[]), Err(refusal(1, 0)));
    assert_eq!(survey(&[]), Err(refusal(1, 0)));
    assert_eq!(survey_counted(b"DMS", u64::MAX), Err(refusal(1, 0)));
    let mesh = cube();
    let links = link(&mesh).unwrap();
    assert_eq!(build(&mesh, &links, 0, 0), Err(refusal(16, 0)));
    for far in [25, BEYOND, usize::MAX] {
        assert_eq!(build(&mesh, &links, 0, far), Err(refusal(16, 0)));
        assert_eq!(build(&mesh, &links, far, 1), Err(refusal(16, far as u64)));
        assert_eq!(build(&mesh, &links, far, far), Err(refusal(16, far as u64)));
    }
    let many = MeshRef::new(&mesh.coordinates, &mesh.sides, &[0; 8_193]);
    assert_eq!(link(many), Err(refusal(4, 0)));
    assert_eq!(build(many, &links, 0, 8_193), Err(refusal(4, 0)));
}

/// Lists for the archive: empty ones with null pointers pass; lengths beyond 32 bits are refused before anything is
/// looked at, also where four times the length is the other one in 32 bits.
#[test]
fn lengths_for_the_archive() {
    let mut place = UNTOUCHED;
    assert_eq!(unsafe { raw::mahunopi_archive(null(), 0, null_mut(), 0, &mut place) }, 0);
    assert_eq!(unsafe { raw::mahunopi_restore(null(), 0, null_mut(), 0, &mut place) }, 0);
    assert_eq!(place, UNTOUCHED);
    let lengths = [
        (BEYOND, 0, 30, BEYOND),
        (BEYOND, 4 * BEYOND, 30, BEYOND),
        (3 * BEYOND, 0, 31, 0),
        (3 * BEYOND, 12, 31, 12),
        (3 + 3 * BEYOND, 12, 31, 12),
        (3, 12 + BEYOND, 31, 12 + BEYOND),
        (3, 12 + 4 * BEYOND, 31, 12 + 4 * BEYOND),
        (3 << 60, 0, 31, 0),
        (0, 1 << 62, 31, 1 << 62),
    ];
    for (number_count, byte_count, refusal, at) in lengths {
        let mut numbers = [7; 3];
        let mut bytes = [7; 12];
        let mut places = [UNTOUCHED; 2];
        let [there, back] = &mut places;
        let answers = unsafe {
            [
                raw::mahunopi_archive(numbers.as_ptr(), number_count, bytes.as_mut_ptr(), byte_count, there),
                raw::mahunopi_restore(bytes.as_ptr(), byte_count, numbers.as_mut_ptr(), number_count, back),
            ]
        };
        assert_eq!((answers, places), ([refusal; 2], [at as u64; 2]));
        assert_eq!((numbers, bytes), ([7; 3], [7; 12]));
    }
}

/// An empty text and lists without entries may be null pointers.
#[test]
fn texts_from_nowhere() {
    let mut place = 7;
    let mut lengths = [8; 4];
    let [a, b, c, d] = &mut lengths;
    let lent = || Mesh::new(vec![5; 6_144], vec![6; 4_096], vec![7; 8_192]).with_sharpness(vec![9; 16_384]);
    let mut mesh = lent();
    // SAFETY: a list of no entries may be anywhere
    let (nothing, no_text) = unsafe {
        let nothing = raw::mahunopi_off(
            null(),
            0,
            null_mut(),
            0,
            null_mut(),
            0,
            null_mut(),
            0,
            null_mut(),
            0,
            a,
            b,
            c,
            d,
            &mut place,
        );
        let (coordinates, sides, corners, sharpness) = (
            mesh.coordinates.as_mut_ptr(),
            mesh.sides.as_mut_ptr(),
            mesh.corners.as_mut_ptr(),
            mesh.sharpness.as_mut_ptr(),
        );
        let no_text = raw::mahunopi_off(
            null(),
            0,
            coordinates,
            6_144,
            sides,
            4_096,
            corners,
            8_192,
            sharpness,
            16_384,
            a,
            b,
            c,
            d,
            &mut place,
        );
        (nothing, no_text)
    };
    assert_eq!((nothing, no_text, place, lengths), (24, 24, 0, [8; 4]));
    assert_eq!(mesh, lent());
}
