//! Calls the proved library and the independent implementation with the same input and the same contents of every lent
//! space, and demands the same answer and the same contents afterwards. What is left alone is checked too: the place
//! when the library is done, the lengths after a refusal.

pub mod program;
mod report;
mod triangles;
mod turning;

use std::num::NonZeroUsize;
use std::ops::Range;
use std::sync::Mutex;
use std::{env, panic, thread};

use mahunopi::{raw, MeshRef};
use reference::{Counts, FloatPoint, Irregular, Lengths, Lists, Refusal, LENT_TOO_SHORT, MOST};
use shapes::{Random, Tables};

pub use report::{merge, report};
pub use triangles::{count_triangles, tangents, triangles, Corners};
pub use turning::turn;

/// What `place` and the lengths hold before a call.
const UNTOUCHED: u64 = 0xfeed_0000_0000_beef;

pub fn lists(tables: &Tables) -> Lists<'_> {
    Lists {
        coordinates: &tables.coordinates,
        sides: &tables.sides,
        corners: &tables.corners,
        sharpness: &tables.sharpness,
    }
}

/// The same lists for the wrapper.
pub fn mesh(tables: &Tables) -> MeshRef<'_> {
    MeshRef::new(&tables.coordinates, &tables.sides, &tables.corners).with_sharpness(&tables.sharpness)
}

/// A version that a file of these lists may have: 1 only where all sharpness is 8, and then once in two.
pub fn version(tables: &Tables, random: &mut Random) -> usize {
    if tables.is_plain() && random.once_in(2) {
        1
    } else {
        2
    }
}

/// The library's answer; fails where it is done and the place is not left alone.
fn answer(number: u32, place: u64) -> Result<(), Refusal> {
    if number == 0 {
        assert_eq!(place, UNTOUCHED, "the place changes without a refusal");
        return Ok(());
    }
    Err(Refusal { number, place })
}

/// The first entry that differs ends the test.
pub fn same<T: PartialEq + std::fmt::Debug>(what: &str, library: &[T], reference: &[T]) {
    if let Some(at) = library.iter().zip(reference).position(|(a, b)| a != b) {
        let (a, b) = (&library[at], &reference[at]);
        panic!("{what}[{at}] is {a:?} after the library's call, {b:?} after the reference's");
    }
}

/// Linking with a lent table of `length` entries; the links where both are done.
pub fn link(tables: &Tables, length: usize, random: &mut Random) -> Result<Vec<u16>, Refusal> {
    let mut links: Vec<u16> = (0..length).map(|_| random.bits() as u16).collect();
    let mut expected = links.clone();
    let mut place = UNTOUCHED;
    // SAFETY: each pointer goes with the length of its own list
    let number = unsafe {
        raw::mahunopi_link(
            tables.coordinates.as_ptr(),
            tables.coordinates.len(),
            tables.sides.as_ptr(),
            tables.sides.len(),
            tables.corners.as_ptr(),
            tables.corners.len(),
            tables.sharpness.as_ptr(),
            tables.sharpness.len(),
            links.as_mut_ptr(),
            links.len(),
            &mut place,
        )
    };
    let result = reference::link(lists(tables), &mut expected);
    assert_eq!(answer(number, place), result, "linking answers otherwise");
    same("links", &links, &expected);
    result.map(|()| links)
}

/// Building into a lent output of `length` numbers; the control points where both are done.
pub fn build(
    tables: &Tables,
    links: &[u16],
    first: usize,
    count: usize,
    length: usize,
    random: &mut Random,
) -> Result<Vec<i32>, Refusal> {
    let mut output: Vec<i32> = (0..length).map(|_| random.bits() as i32).collect();
    let mut expected = output.clone();
    let mut place = UNTOUCHED;
    // SAFETY: each pointer goes with the length of its own list
    let number = unsafe {
        raw::mahunopi_build(
            tables.coordinates.as_ptr(),
            tables.coordinates.len(),
            tables.sides.as_ptr(),
            tables.sides.len(),
            tables.corners.as_ptr(),
            tables.corners.len(),
            tables.sharpness.as_ptr(),
            tables.sharpness.len(),
            links.as_ptr(),
            links.len(),
            first,
            count,
            output.as_mut_ptr(),
            output.len(),
            &mut place,
        )
    };
    let result = reference::build(lists(tables), links, first, count, &mut expected);
    assert_eq!(answer(number, place), result, "building answers otherwise");
    same("output", &output, &expected);
    result.map(|()| output)
}

/// Reading the bytes as a file of `length` bytes into lent lists with `spaces` entries.
pub fn decode(bytes: &[u8], length: u64, spaces: [usize; 4], random: &mut Random) -> Result<Tables, Refusal> {
    let mut read = Tables {
        coordinates: (0..spaces[0]).map(|_| random.bits() as i32).collect(),
        sides: (0..spaces[1]).map(|_| random.bits() as u8).collect(),
        corners: (0..spaces[2]).map(|_| random.bits() as u16).collect(),
        sharpness: (0..spaces[3]).map(|_| random.bits() as u8).collect(),
    };
    let mut expected = read.clone();
    let mut place = UNTOUCHED;
    let mut lengths = [UNTOUCHED; 4];
    let [coordinate_count, side_count, corner_count, sharpness_count] = &mut lengths;
    // SAFETY: each pointer goes with the length of its own list
    let number = unsafe {
        raw::mahunopi_decode(
            bytes.as_ptr(),
            bytes.len(),
            length,
            read.coordinates.as_mut_ptr(),
            read.coordinates.len(),
            read.sides.as_mut_ptr(),
            read.sides.len(),
            read.corners.as_mut_ptr(),
            read.corners.len(),
            read.sharpness.as_mut_ptr(),
            read.sharpness.len(),
            coordinate_count,
            side_count,
            corner_count,
            sharpness_count,
            &mut place,
        )
    };
    let Tables { coordinates, sides, corners, sharpness } = &mut expected;
    let result = reference::decode(bytes, length, coordinates, sides, corners, sharpness);
    check_file_answer(bytes, length, number, place, &result);
    same("coordinates", &read.coordinates, &expected.coordinates);
    same("sides", &read.sides, &expected.sides);
    same("corners", &read.corners, &expected.corners);
    same("sharpness", &read.sharpness, &expected.sharpness);
    let asked = match result {
        Ok(Lengths { coordinates, sides, corners, sharpness }) => {
            [coordinates, sides, corners, sharpness].map(|length| length as u64)
        }
        Err(_) => [UNTOUCHED; 4],
    };
    assert_eq!(lengths, asked, "decoding gives other lengths");
    let Lengths { coordinates, sides, corners, sharpness } = result?;
    read.coordinates.truncate(coordinates);
    read.sides.truncate(sides);
    read.corners.truncate(corners);
    read.sharpness.truncate(sharpness);
    Ok(read)
}

/// Counting what the bytes hold as a file of `length` bytes, with lent lists of `spaces` entries.
pub fn survey(bytes: &[u8], length: u64, spaces: [usize; 2], random: &mut Random) -> Result<Counts, Refusal> {
    let mut lent = spaces.map(|space| (0..space).map(|_| random.bits() as u16).collect::<Vec<_>>());
    let mut expected = lent.clone();
    let mut place = UNTOUCHED;
    let mut totals = [UNTOUCHED; 3];
    let [vertices, faces, corners] = &mut totals;
    let [vertices_with, faces_with] = &mut lent;
    // SAFETY: each pointer goes with the length of its own list
    let number = unsafe {
        raw::mahunopi_survey(
            bytes.as_ptr(),
            bytes.len(),
            length,
            vertices,
            faces,
            corners,
            vertices_with.as_mut_ptr(),
            vertices_with.len(),
            faces_with.as_mut_ptr(),
            faces_with.len(),
            &mut place,
        )
    };
    let room = spaces.iter().all(|&space| space > MOST);
    let short = Refusal { number: LENT_TOO_SHORT, place: MOST as u64 + 1 };
    let result = reference::summary(bytes, length).and_then(|c| if room { Ok(c) } else { Err(short) });
    let mut asked = [UNTOUCHED; 3];
    if let Ok(counts) = &result {
        asked = [counts.vertices, counts.faces, counts.corners].map(|count| count as u64);
        for (m, &(vertices, faces)) in counts.by_number.iter().enumerate() {
            expected[0][m] = vertices as u16;
            expected[1][m] = faces as u16;
        }
    }
    check_file_answer(bytes, length, number, place, &result);
    assert_eq!(totals, asked, "surveying gives other counts");
    same("vertices_with", &lent[0], &expected[0]);
    same("faces_with", &lent[1], &expected[1]);
    result
}

/// The library's answer about a file has to be the reference's.
fn check_file_answer<T>(bytes: &[u8], length: u64, number: u32, place: u64, result: &Result<T, Refusal>) {
    // of a file shorter than its header of which more bytes are held, 01 does not say which of 1 to 3 it is
    if length < 11 && bytes.len() >= 11 {
        assert!((1..=3).contains(&number) && place == 0, "the answer is {number} at {place}");
    } else {
        assert_eq!(answer(number, place), result.as_ref().map(|_| ()).map_err(|&refusal| refusal), "another answer");
    }
}

/// One control point in floats, with lent floats and a lent `pairs` of any contents; every bit is compared.
pub fn floats(numbers: &[i32], point: usize, random: &mut Random) -> Result<FloatPoint, Refusal> {
    // no NaN: its bits need not last
    let mut lent = [0; 6].map(|_: u32| f32::from_bits(random.bits() as u32 & 0xbfff_ffff));
    let lent_pairs = random.bits() as u32;
    let mut bits = lent.map(f32::to_bits);
    let mut pairs = lent_pairs;
    let mut place = UNTOUCHED;
    // SAFETY: the pointer goes with the length of its list
    let number =
        unsafe { raw::mahunopi_floats(numbers.as_ptr(), numbers.len(), point, &mut lent, &mut pairs, &mut place) };
    let result = reference::floats(numbers, point);
    assert_eq!(answer(number, place), result.map(|_| ()), "point {point} is answered otherwise");
    let asked = match result {
        Ok(FloatPoint::Near(near)) => {
            bits[..3].copy_from_slice(&near.map(f32::to_bits));
            0
        }
        Ok(FloatPoint::Far(first, second)) => {
            bits[..3].copy_from_slice(&first.map(f32::to_bits));
            bits[3..].copy_from_slice(&second.map(f32::to_bits));
            1
        }
        Err(_) => lent_pairs,
    };
    assert_eq!(pairs, asked, "point {point} has other pairs");
    same("floats", &lent.map(f32::to_bits), &bits);
    result
}

/// The search for an irregular face or vertex, with lent numbers of any contents; what is found, and the side counts read.
pub fn irregular(tables: &Tables, random: &mut Random) -> Result<(Irregular, usize), Refusal> {
    let lent = (random.bits() as u32, random.bits(), random.bits());
    let (mut kind, mut number, mut read) = lent;
    let mut place = UNTOUCHED;
    // SAFETY: each pointer goes with the length of its own list
    let refusal = unsafe {
        raw::mahunopi_irregular(
            tables.coordinates.as_ptr(),
            tables.coordinates.len(),
            tables.sides.as_ptr(),
            tables.sides.len(),
            tables.corners.as_ptr(),
            tables.corners.len(),
            tables.sharpness.as_ptr(),
            tables.sharpness.len(),
            &mut kind,
            &mut number,
            &mut read,
            &mut place,
        )
    };
    let result = reference::irregular(lists(tables));
    assert_eq!(answer(refusal, place), result.map(|_| ()), "the search answers otherwise");
    let asked = match result {
        Ok((Irregular::None, read)) => (0, 0, read as u64),
        Ok((Irregular::Face(face), read)) => (1, face as u64, read as u64),
        Ok((Irregular::Vertex(vertex), read)) => (2, vertex as u64, read as u64),
        Err(_) => lent,
    };
    assert_eq!((kind, number, read), asked, "the search finds something else");
    result
}

/// Building with a vertex moved, into a lent output of `length` numbers; the control points where both are done.
#[allow(clippy::too_many_arguments)]
pub fn preview(
    tables: &Tables,
    links: &[u16],
    first: usize,
    count: usize,
    vertex: usize,
    to: [i32; 3],
    length: usize,
    random: &mut Random,
) -> Result<Vec<i32>, Refusal> {
    let mut output: Vec<i32> = (0..length).map(|_| random.bits() as i32).collect();
    let mut expected = output.clone();
    let before = tables.clone();
    let mut place = UNTOUCHED;
    // SAFETY: each pointer goes with the length of its own list
    let number = unsafe {
        raw::mahunopi_preview(
            tables.coordinates.as_ptr(),
            tables.coordinates.len(),
            tables.sides.as_ptr(),
            tables.sides.len(),
            tables.corners.as_ptr(),
            tables.corners.len(),
            tables.sharpness.as_ptr(),
            tables.sharpness.len(),
            links.as_ptr(),
            links.len(),
            first,
            count,
            vertex,
            to[0],
            to[1],
            to[2],
            output.as_mut_ptr(),
            output.len(),
            &mut place,
        )
    };
    let result = reference::preview(lists(tables), links, first, count, vertex, to, &mut expected);
    assert_eq!(answer(number, place), result, "the preview answers otherwise");
    same("output", &output, &expected);
    assert!(*tables == before, "the preview changes a list");
    result.map(|()| output)
}

/// The corners that a vertex can change, with a lent list of `length` marks of any contents; the marks where both are done.
pub fn touched(tables: &Tables, vertex: usize, length: usize, random: &mut Random) -> Result<Vec<u8>, Refusal> {
    let mut marks: Vec<u8> = (0..length).map(|_| random.bits() as u8).collect();
    let mut expected = marks.clone();
    let mut place = UNTOUCHED;
    // SAFETY: each pointer goes with the length of its own list
    let number = unsafe {
        raw::mahunopi_touched(
            tables.coordinates.as_ptr(),
            tables.coordinates.len(),
            tables.sides.as_ptr(),
            tables.sides.len(),
            tables.corners.as_ptr(),
            tables.corners.len(),
            tables.sharpness.as_ptr(),
            tables.sharpness.len(),
            vertex,
            marks.as_mut_ptr(),
            marks.len(),
            &mut place,
        )
    };
    let result = reference::touched(lists(tables), vertex, &mut expected);
    assert_eq!(answer(number, place), result, "what is touched is answered otherwise");
    same("marks", &marks, &expected);
    result.map(|()| marks)
}

/// One sample, into a lent point of any contents.
pub fn sample(
    numbers: &[i32],
    side: usize,
    weights: [usize; 3],
    parts: usize,
    random: &mut Random,
) -> Result<[i32; 3], Refusal> {
    let [i, j, k] = weights;
    let mut point = [0; 3].map(|_: i32| random.bits() as i32);
    let lent = point;
    let mut place = UNTOUCHED;
    // SAFETY: the pointer goes with the length of its list
    let number =
        unsafe { raw::mahunopi_sample(numbers.as_ptr(), numbers.len(), side, i, j, k, parts, &mut point, &mut place) };
    let result = reference::sample(numbers, side, weights, parts);
    assert_eq!(answer(number, place), result.map(|_| ()), "the sample {weights:?} of {parts} is answered otherwise");
    assert_eq!(point, result.unwrap_or(lent), "the sample {weights:?} of {parts} on side {side} is another");
    result
}

/// The tangents at one sample.
pub fn tangents_at(
    numbers: &[i32],
    side: usize,
    weights: [usize; 3],
    parts: usize,
    random: &mut Random,
) -> Result<[[i64; 3]; 2], Refusal> {
    let [i, j, k] = weights;
    let mut tangents = [0; 6].map(|_: i64| random.bits() as i64);
    let lent = tangents;
    let mut place = UNTOUCHED;
    // SAFETY: the pointer goes with the length of its list
    let number = unsafe {
        raw::mahunopi_tangents_at(numbers.as_ptr(), numbers.len(), side, i, j, k, parts, &mut tangents, &mut place)
    };
    let result = reference::sample_tangents(numbers, side, weights, parts);
    assert_eq!(
        answer(number, place),
        result.map(|_| ()),
        "the tangents at {weights:?} of {parts} are answered otherwise"
    );
    let expected = result.map_or(lent, |[[x, y, z], [u, v, w]]| [x, y, z, u, v, w]);
    assert_eq!(tangents, expected, "the tangents at {weights:?} of {parts} on side {side} are others");
    result
}

/// All points of a list of quad-nets in floats, into a lent list of `length` floats.
pub fn floats_all(numbers: &[i32], length: usize, random: &mut Random) -> Result<(), Refusal> {
    // no NaN: its bits need not last
    let mut floats: Vec<f32> = (0..length).map(|_| f32::from_bits(random.bits() as u32 & 0xbfff_ffff)).collect();
    let mut expected: Vec<u32> = floats.iter().map(|float| float.to_bits()).collect();
    let mut place = UNTOUCHED;
    // SAFETY: each pointer goes with the length of its own list
    let number = unsafe {
        raw::mahunopi_floats_all(numbers.as_ptr(), numbers.len(), floats.as_mut_ptr(), floats.len(), &mut place)
    };
    let result = reference::floats_all(numbers, length);
    assert_eq!(
        answer(number, place),
        result.as_ref().map(|_| ()).map_err(|&refusal| refusal),
        "a list of nets is answered otherwise"
    );
    if let Ok(all) = &result {
        for (place, float) in all.iter().enumerate() {
            expected[place] = float.to_bits();
        }
    }
    same("floats", &floats.iter().map(|float| float.to_bits()).collect::<Vec<_>>(), &expected);
    result.map(|_| ())
}

/// All samples of a triangle, into a lent list of `length` numbers.
pub fn sample_triangle(
    numbers: &[i32],
    side: usize,
    parts: usize,
    length: usize,
    random: &mut Random,
) -> Result<Vec<i32>, Refusal> {
    let mut points: Vec<i32> = (0..length).map(|_| random.bits() as i32).collect();
    let mut expected = points.clone();
    let mut place = UNTOUCHED;
    // SAFETY: each pointer goes with the length of its own list
    let number = unsafe {
        raw::mahunopi_sample_triangle(
            numbers.as_ptr(),
            numbers.len(),
            side,
            parts,
            points.as_mut_ptr(),
            points.len(),
            &mut place,
        )
    };
    let result = reference::sample_triangle(numbers, side, parts, &mut expected);
    assert_eq!(answer(number, place), result, "a triangle of {parts} parts is answered otherwise");
    same("points", &points, &expected);
    result.map(|()| points)
}

/// Runs a check for each case number, and says which one failed. MAHUNOPI_CASES in the environment multiplies the
/// number of cases; MAHUNOPI_CASE runs one alone.
pub fn each_case(cases: u64, seed: u64, mut check: impl FnMut(u64, &mut Random)) {
    for case in case_numbers(cases) {
        one_case(case, seed, &mut check);
    }
}

/// The same on all cores, for a check that keeps nothing from case to case.
pub fn each_case_apart(cases: u64, seed: u64, check: impl Fn(u64, &mut Random) + Sync) {
    let numbers = Mutex::new(case_numbers(cases));
    // a case that fails leaves the others to end: nobody holds the lock while a case runs
    let next = || numbers.lock().expect("a lock that no case holds").next();
    thread::scope(|scope| {
        for _ in 0..thread::available_parallelism().map_or(1, NonZeroUsize::get) {
            scope.spawn(|| {
                while let Some(case) = next() {
                    one_case(case, seed, &check);
                }
            });
        }
    });
}

fn case_numbers(cases: u64) -> Range<u64> {
    let number = |name: &str| env::var(name).ok().map(|text| text.parse::<u64>().expect("a whole number"));
    match number("MAHUNOPI_CASE") {
        Some(case) => case..case + 1,
        None => 0..cases * number("MAHUNOPI_CASES").unwrap_or(1),
    }
}

fn one_case(case: u64, seed: u64, mut check: impl FnMut(u64, &mut Random)) {
    // what a case draws depends on its number alone
    let mut random = Random::new(seed.wrapping_mul(0x1_0000_0001).wrapping_add(case << 20));
    let run = panic::AssertUnwindSafe(|| check(case, &mut random));
    if let Err(failure) = panic::catch_unwind(run) {
        eprintln!("case {case} failed; MAHUNOPI_CASE={case} runs it alone");
        panic::resume_unwind(failure);
    }
}
