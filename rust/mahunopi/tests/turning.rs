//! Turning faces through the safe wrapper and through the library's own function: what is turned and what is kept, null
//! and odd lengths, and the stack that a call needs.

use std::ptr::{null, null_mut};
use std::thread;

use mahunopi::{decode, link, raw, turn, turn_in_place, turn_into, Fault, Mesh, MeshRef, Refusal, CALL_STACK};

const BEYOND: usize = 1 << 32;
const UNTOUCHED: u64 = 0x1234_5678_9abc_def0;

fn cube() -> Mesh {
    decode(include_bytes!("../../../meshes/cube.dms")).unwrap()
}

/// Turns a face: the order of its corners after the first one, and the sharpness with them.
fn turn_face(mesh: &mut Mesh, face: usize) {
    let first: usize = mesh.sides[..face].iter().map(|&n| usize::from(n)).sum();
    let end = first + usize::from(mesh.sides[face]);
    mesh.corners[first + 1..end].reverse();
    mesh.sharpness[2 * first..2 * end].chunks_exact_mut(2).for_each(<[u8]>::reverse);
    let pairs: Vec<[u8; 2]> = (first + 1..end).map(|c| [mesh.sharpness[2 * c], mesh.sharpness[2 * c + 1]]).collect();
    let reversed: Vec<u8> = pairs.into_iter().rev().flatten().collect();
    mesh.sharpness[2 * first + 2..2 * end].copy_from_slice(&reversed);
}

/// A torus of p times q four-sided faces, flat: only its lists matter here. With `seam` its last ring meets the first one
/// in reverse: a Klein bottle.
fn torus(p: usize, q: usize, seam: bool) -> Mesh {
    let at = |i: usize, j: usize| (if i == p && seam { (q - j % q) % q } else { (i % p) * q + j % q }) as u16;
    let corners = (0..p * q)
        .map(|f| (f / q, f % q))
        .flat_map(|(i, j)| [at(i, j), at(i, j + 1), at(i + 1, j + 1), at(i + 1, j)])
        .collect();
    let sharpness = (0..8 * p * q).map(|i| (7 * i % 17) as u8).collect();
    Mesh::new(vec![1; 3 * p * q], vec![4; p * q], corners).with_sharpness(sharpness)
}

#[test]
fn three_ways_to_turn() {
    let sound = torus(5, 7, false);
    let mut model = sound.clone();
    let faces = [3, 4, 11, 34];
    faces.iter().for_each(|&face| turn_face(&mut model, face));
    let turned = turn(&model).unwrap();
    assert_eq!((&turned.mesh, &turned.faces[..]), (&sound, &faces[..]));
    assert_eq!(turn(model.view()).unwrap(), turned);
    let mut listing = [999; 35];
    let mut lent = model.clone();
    let count =
        turn_into(&lent.coordinates, &lent.sides, &mut lent.corners, &mut lent.sharpness, &mut listing).unwrap();
    assert_eq!((count, &lent), (4, &sound));
    assert_eq!(listing[..4], [3, 4, 11, 34]);
    assert_eq!(listing[4..], [999; 31], "entries after the last face");
    assert_eq!(turn_in_place(&mut model).unwrap(), faces);
    assert_eq!(model, sound);
    assert_eq!(turn_in_place(&mut model).unwrap(), [], "nothing is left to turn");
    assert_eq!(model, sound);
}

/// The lowest face is kept, though it alone runs the other way.
#[test]
fn the_lowest_face_is_kept() {
    let sound = torus(4, 6, false);
    let mut model = sound.clone();
    turn_face(&mut model, 0);
    let turned = turn(&model).unwrap();
    assert_eq!(turned.faces, (1..24).collect::<Vec<usize>>());
    let mut all = sound;
    (0..24).for_each(|face| turn_face(&mut all, face));
    assert_eq!(turned.mesh, all);
    assert!(link(&turned.mesh).is_ok());
}

/// Words and places of the refusals, and a refused mesh is as it was.
#[test]
fn refusals() {
    let refused = |mesh: &Mesh| {
        let mut lent = mesh.clone();
        let refusal = turn_in_place(&mut lent).unwrap_err();
        assert_eq!(&lent, mesh);
        assert_eq!(turn(mesh), Err(refusal));
        refusal
    };
    let bottle = torus(4, 5, true);
    assert_eq!(refused(&bottle).to_string(), "refused 35 at face 0: no choice of turns makes the model pass 10 and 11");
    // face 3 of a torus left out: the lowest edge that is now in one face leaves corner 9, of face 2
    let mut open = torus(4, 5, false);
    open.sides.remove(3);
    open.corners.drain(12..16);
    open.sharpness.drain(24..32);
    assert_eq!(
        refused(&open).to_string(),
        "refused 34 at corner 9: an edge, its direction ignored, is not in exactly two faces"
    );
    let mut beyond = cube();
    beyond.sharpness[7] = 17;
    assert_eq!(refused(&beyond), Refusal::new(Fault::BadSharpness, 7));
    assert_eq!(refused(&Mesh::default()), Refusal::new(Fault::BadCounts, 0));
    let mesh = cube();
    for length in [0, 5, 7, 4_096] {
        let mut lent = mesh.clone();
        let mut listing = vec![9; length];
        let answer = turn_into(&lent.coordinates, &lent.sides, &mut lent.corners, &mut lent.sharpness, &mut listing);
        assert_eq!(answer, Err(Refusal::new(Fault::BadListingLength, length as u64)));
        assert!(lent == mesh && listing.iter().all(|&entry| entry == 9));
    }
    // more faces and corners than any mesh has
    assert_eq!(turn(MeshRef::new(&[0; 9], &[3; 70_000], &[0; 70_000])), Err(Refusal::new(Fault::BadCounts, 0)));
}

/// Turning of the cube, its face 2 turned, with these lengths in the place of its own, where null stands for no entries.
/// Every list has its own entries only: a length that names more has to be refused before they are looked at.
fn turn_with(coordinates: usize, sides: usize, corners: usize, sharpness: usize, listing: usize) -> (u32, u64) {
    let mut sound = cube();
    sound.sharpness = (0..48).map(|i| i % 17).collect();
    let mut model = sound.clone();
    turn_face(&mut model, 2);
    let before = model.clone();
    let mut faces = [7; 6];
    let (mut turned, mut place) = (UNTOUCHED, UNTOUCHED);
    let number = unsafe {
        raw::mahunopi_turn(
            if coordinates == 0 { null() } else { model.coordinates.as_ptr() },
            coordinates,
            if sides == 0 { null() } else { model.sides.as_ptr() },
            sides,
            if corners == 0 { null_mut() } else { model.corners.as_mut_ptr() },
            corners,
            if sharpness == 0 { null_mut() } else { model.sharpness.as_mut_ptr() },
            sharpness,
            if listing == 0 { null_mut() } else { faces.as_mut_ptr() },
            listing,
            &mut turned,
            &mut place,
        )
    };
    if number == 0 {
        assert_eq!((model, faces, turned), (sound, [2, 7, 7, 7, 7, 7], 1));
    } else {
        assert_eq!((model, faces, turned), (before, [7; 6], UNTOUCHED));
    }
    (number, place)
}

#[test]
fn lengths_beyond_32_bits() {
    assert_eq!(turn_with(24, 6, 24, 48, 6), (0, UNTOUCHED));
    for beyond in [BEYOND - 1, BEYOND, BEYOND + 6, BEYOND + 24, BEYOND + 48, 3 << 32, usize::MAX / 8] {
        // 36 comes before everything else
        assert_eq!(turn_with(24, 6, 24, 48, beyond), (36, beyond as u64));
        assert_eq!(turn_with(beyond, 6, beyond, beyond, beyond), (36, beyond as u64));
        assert_eq!(turn_with(24, beyond, 24, 48, 6), (36, 6));
        // as many entries as there are faces, whatever their number
        assert_eq!(turn_with(24, beyond, 24, 48, beyond), (4, 0));
        assert_eq!(turn_with(beyond, 6, 24, 48, 6), (4, 0));
        assert_eq!(turn_with(24, 6, beyond, 48, 6), (4, 0));
        assert_eq!(turn_with(24, 6, beyond, beyond, 6), (4, 0));
        assert_eq!(turn_with(24, 6, 24, beyond, 6), (27, beyond as u64));
    }
}

#[test]
fn null_spaces() {
    assert_eq!(turn_with(0, 0, 0, 0, 0), (4, 0));
    assert_eq!(turn_with(0, 0, 0, 0, 1), (36, 1));
    assert_eq!(turn_with(0, 6, 24, 48, 6), (4, 0));
    assert_eq!(turn_with(24, 0, 24, 48, 0), (4, 0));
    assert_eq!(turn_with(24, 0, 24, 48, 6), (36, 6));
    assert_eq!(turn_with(24, 6, 24, 48, 0), (36, 0));
    assert_eq!(turn_with(24, 6, 0, 48, 6), (4, 0));
    assert_eq!(turn_with(24, 6, 24, 0, 6), (27, 0));
    for listing in [5, 7, 24, 48] {
        assert_eq!(turn_with(23, 6, 23, 47, listing), (36, listing as u64));
    }
    assert_eq!(turn_with(23, 6, 24, 48, 6), (4, 0));
    assert_eq!(turn_with(24, 6, 24, 47, 6), (27, 47));
    assert_eq!(turn_with(24, 6, 23, 46, 6), (6, 24));
    assert_eq!(turn_with(21, 6, 24, 48, 6).0, 8);
}

/// Largest models, on a thread with the stack that the header names.
#[test]
fn the_stack_that_a_call_needs() {
    let sound = torus(32, 64, false);
    let mut model = sound.clone();
    (1..2_048).step_by(3).for_each(|face| turn_face(&mut model, face));
    let bottle = torus(32, 64, true);
    let call = move || {
        assert_eq!(turn_in_place(&mut model).unwrap().len(), 683);
        assert!(model == sound);
        assert_eq!(turn(&bottle), Err(Refusal::new(Fault::NoChoiceOfTurns, 0)));
    };
    thread::Builder::new().stack_size(CALL_STACK).spawn(call).unwrap().join().unwrap();
}
