//! L1: one control point of a quad-net as its difference from b00, in floats; and all points of a list of quad-nets.

use crate::{refuse, Refusal, LENT_TOO_SHORT, NUMBERS_PER_CORNER};

/// A point's difference: three floats, or the first and the second floats of three pairs.
#[derive(Clone, Copy, Debug, PartialEq)]
pub enum FloatPoint {
    Near([f32; 3]),
    Far([f32; 3], [f32; 3]),
}

/// The float of a whole number that it holds exactly.
fn float(whole: i64) -> f32 {
    let float = whole as f32;
    assert_eq!(float as i64, whole, "a float does not hold {whole}");
    float
}

/// The difference of a point from b00: faults 18, 19 and 20.
pub fn floats(numbers: &[i32], point: usize) -> Result<FloatPoint, Refusal> {
    if numbers.len() != NUMBERS_PER_CORNER {
        return refuse(18, numbers.len());
    }
    if let Some(place) = numbers.iter().position(|&number| !(-(1 << 27)..=1 << 27).contains(&number)) {
        return refuse(19, place);
    }
    if point > 40 {
        return refuse(20, point);
    }
    let differences = [0, 1, 2].map(|axis| i64::from(numbers[3 * point + axis]) - i64::from(numbers[axis]));
    if differences.iter().all(|d| (-(1 << 24)..=1 << 24).contains(d)) {
        return Ok(FloatPoint::Near(differences.map(float)));
    }
    Ok(FloatPoint::Far(
        differences.map(|d| float(4_096 * d.div_euclid(4_096))),
        differences.map(|d| float(d.rem_euclid(4_096))),
    ))
}

/// The six floats of each point of a list of at most 8,192 quad-nets, three zeros after those of a near one: faults 18 of the
/// whole list, 19 and 255.
pub fn floats_all(numbers: &[i32], room: usize) -> Result<Vec<f32>, Refusal> {
    if numbers.len() % NUMBERS_PER_CORNER != 0 || numbers.len() > 8_192 * NUMBERS_PER_CORNER {
        return refuse(18, numbers.len());
    }
    if let Some(place) = numbers.iter().position(|&number| !(-(1 << 27)..=1 << 27).contains(&number)) {
        return refuse(19, place);
    }
    if room < 2 * numbers.len() {
        return refuse(LENT_TOO_SHORT, 2 * numbers.len());
    }
    let mut all = Vec::new();
    for net in numbers.chunks_exact(NUMBERS_PER_CORNER) {
        for point in 0..41 {
            let (first, second) = match floats(net, point)? {
                FloatPoint::Near(near) => (near, [0.0; 3]),
                FloatPoint::Far(first, second) => (first, second),
            };
            all.extend(first);
            all.extend(second);
        }
    }
    Ok(all)
}
