//! Turning faces with both, on the same lists and a lent listing of the same contents.

use mahunopi::raw;
use reference::Refusal;
use shapes::{Random, Tables};

use crate::{answer, same, UNTOUCHED};

/// Turning with a lent listing of `length` entries; the turned lists and the turned faces where both are done.
pub fn turn(tables: &Tables, length: usize, random: &mut Random) -> Result<(Tables, Vec<usize>), Refusal> {
    let mut model = tables.clone();
    let mut expected = tables.clone();
    let mut listing: Vec<u16> = (0..length).map(|_| random.bits() as u16).collect();
    let mut expected_listing = listing.clone();
    let mut turned = UNTOUCHED;
    let mut place = UNTOUCHED;
    // SAFETY: each pointer goes with the length of its own list
    let number = unsafe {
        raw::mahunopi_turn(
            model.coordinates.as_ptr(),
            model.coordinates.len(),
            model.sides.as_ptr(),
            model.sides.len(),
            model.corners.as_mut_ptr(),
            model.corners.len(),
            model.sharpness.as_mut_ptr(),
            model.sharpness.len(),
            listing.as_mut_ptr(),
            listing.len(),
            &mut turned,
            &mut place,
        )
    };
    let Tables { coordinates, sides, corners, sharpness } = &mut expected;
    let result = reference::turn(coordinates, sides, corners, sharpness, &mut expected_listing);
    assert_eq!(answer(number, place), result.map(|_| ()), "turning answers otherwise");
    assert_eq!(turned, result.map_or(UNTOUCHED, |count| count as u64), "another number of turned faces");
    same("corners", &model.corners, &expected.corners);
    same("sharpness", &model.sharpness, &expected.sharpness);
    same("listing", &listing, &expected_listing);
    assert!(model.coordinates == tables.coordinates && model.sides == tables.sides, "a list that is not lent changes");
    let count = match result {
        Ok(count) => count,
        Err(refusal) => {
            assert!(model == *tables, "a refusal changes a lent list");
            return Err(refusal);
        }
    };
    Ok((model, listing[..count].iter().map(|&face| usize::from(face)).collect()))
}
