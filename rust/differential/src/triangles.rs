//! Calls for the triangles of a surface.

use mahunopi::raw;
use reference::Refusal;
use shapes::{Random, Tables};

use crate::{answer, lists, same, UNTOUCHED};

/// A range of corners.
#[derive(Clone, Copy, Debug)]
pub struct Corners {
    pub first: usize,
    pub count: usize,
}

/// How many numbers a range has; the two counts are left alone beside a refusal.
pub fn count_triangles(
    tables: &Tables,
    links: &[u16],
    levels: &[u8],
    range: Corners,
) -> Result<(usize, usize), Refusal> {
    let [mut points, mut triangles, mut place] = [UNTOUCHED; 3];
    // SAFETY: each pointer goes with the length of its own list
    let number = unsafe {
        raw::mahunopi_count_triangles(
            tables.coordinates.as_ptr(),
            tables.coordinates.len(),
            tables.sides.as_ptr(),
            tables.sides.len(),
            tables.corners.as_ptr(),
            tables.corners.len(),
            tables.sharpness.as_ptr(),
            tables.sharpness.len(),
            links.as_ptr(),
            links.len(),
            levels.as_ptr(),
            levels.len(),
            range.first,
            range.count,
            &mut points,
            &mut triangles,
            &mut place,
        )
    };
    let result = reference::count_triangles(lists(tables), links, levels, range.first, range.count);
    assert_eq!(answer(number, place), result.map(|_| ()), "counting {range:?} answers otherwise");
    let told = result.map_or((UNTOUCHED, UNTOUCHED), |(points, triangles)| (points as u64, triangles as u64));
    assert_eq!((points, triangles), told, "{range:?} is counted otherwise");
    result
}

/// The points and the triangles of a range, into lent lists of `room` and `space` numbers of any contents; what stands in
/// them where both are done.
pub fn triangles(
    tables: &Tables,
    links: &[u16],
    levels: &[u8],
    range: Corners,
    [room, space]: [usize; 2],
    random: &mut Random,
) -> Result<(Vec<i32>, Vec<u32>), Refusal> {
    let mut points: Vec<i32> = (0..room).map(|_| random.bits() as i32).collect();
    let mut triangles: Vec<u32> = (0..space).map(|_| random.bits() as u32).collect();
    let mut expected = (points.clone(), triangles.clone());
    let [mut point_numbers, mut triangle_numbers, mut place] = [UNTOUCHED; 3];
    // SAFETY: each pointer goes with the length of its own list
    let number = unsafe {
        raw::mahunopi_triangles(
            tables.coordinates.as_ptr(),
            tables.coordinates.len(),
            tables.sides.as_ptr(),
            tables.sides.len(),
            tables.corners.as_ptr(),
            tables.corners.len(),
            tables.sharpness.as_ptr(),
            tables.sharpness.len(),
            links.as_ptr(),
            links.len(),
            levels.as_ptr(),
            levels.len(),
            range.first,
            range.count,
            points.as_mut_ptr(),
            points.len(),
            triangles.as_mut_ptr(),
            triangles.len(),
            &mut point_numbers,
            &mut triangle_numbers,
            &mut place,
        )
    };
    let (first, count) = (range.first, range.count);
    let result = reference::triangles(lists(tables), links, levels, first, count, &mut expected.0, &mut expected.1);
    assert_eq!(answer(number, place), result.map(|_| ()), "the triangles of {range:?} are answered otherwise");
    let told = result.map_or((UNTOUCHED, UNTOUCHED), |(points, triangles)| (points as u64, triangles as u64));
    assert_eq!((point_numbers, triangle_numbers), told, "the counts of {range:?} are told otherwise");
    same("points", &points, &expected.0);
    same("triangles", &triangles, &expected.1);
    result.map(|(numbers, indices)| {
        points.truncate(numbers);
        triangles.truncate(indices);
        (points, triangles)
    })
}

/// The tangents at the points of a range, into a lent list of `room` numbers of any contents; what stands in it where it is
/// done.
pub fn tangents(
    tables: &Tables,
    links: &[u16],
    levels: &[u8],
    range: Corners,
    room: usize,
    random: &mut Random,
) -> Result<Vec<i64>, Refusal> {
    let mut tangents: Vec<i64> = (0..room).map(|_| random.bits() as i64).collect();
    let mut expected = tangents.clone();
    let [mut numbers, mut place] = [UNTOUCHED; 2];
    // SAFETY: each pointer goes with the length of its own list
    let number = unsafe {
        raw::mahunopi_tangents(
            tables.coordinates.as_ptr(),
            tables.coordinates.len(),
            tables.sides.as_ptr(),
            tables.sides.len(),
            tables.corners.as_ptr(),
            tables.corners.len(),
            tables.sharpness.as_ptr(),
            tables.sharpness.len(),
            links.as_ptr(),
            links.len(),
            levels.as_ptr(),
            levels.len(),
            range.first,
            range.count,
            tangents.as_mut_ptr(),
            tangents.len(),
            &mut numbers,
            &mut place,
        )
    };
    let all: Result<Vec<i64>, Refusal> = reference::tangents(lists(tables), links, levels, range.first, range.count)
        .map(|pairs| pairs.into_iter().flatten().flatten().collect());
    let result = match all {
        Ok(all) if room < all.len() => Err(Refusal { number: 255, place: all.len() as u64 }),
        other => other,
    };
    assert_eq!(
        answer(number, place),
        result.as_ref().map(|_| ()).map_err(|&refusal| refusal),
        "tangents of {range:?} are answered otherwise"
    );
    if let Ok(all) = &result {
        expected[..all.len()].copy_from_slice(all);
    }
    assert_eq!(
        numbers,
        result.as_ref().map_or(UNTOUCHED, |all| all.len() as u64),
        "{range:?} has another number of tangents"
    );
    same("tangents", &tangents, &expected);
    result
}
