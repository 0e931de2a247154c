//! L12: the point of one of a quad-net's four triangles at weights i/N, j/N, k/N, as the request states it.

use crate::{refuse, round, Refusal, LENT_TOO_SHORT, NUMBERS_PER_CORNER};

/// b and a of the 41 points, by the names of 01.
fn b(i: usize, j: usize) -> usize {
    5 * i + j
}

fn a(i: usize, j: usize) -> usize {
    25 + 4 * i + j
}

/// A side's triangle: five outer b points, four a points, three b points, two a points and b22, each row from the head.
fn triangle(side: usize) -> [Vec<usize>; 5] {
    match side {
        0 => [
            vec![b(0, 0), b(0, 1), b(0, 2), b(0, 3), b(0, 4)],
            vec![a(0, 0), a(0, 1), a(0, 2), a(0, 3)],
            vec![b(1, 1), b(1, 2), b(1, 3)],
            vec![a(1, 1), a(1, 2)],
            vec![b(2, 2)],
        ],
        1 => [
            vec![b(4, 4), b(3, 4), b(2, 4), b(1, 4), b(0, 4)],
            vec![a(3, 3), a(2, 3), a(1, 3), a(0, 3)],
            vec![b(3, 3), b(2, 3), b(1, 3)],
            vec![a(2, 2), a(1, 2)],
            vec![b(2, 2)],
        ],
        2 => [
            vec![b(4, 4), b(4, 3), b(4, 2), b(4, 1), b(4, 0)],
            vec![a(3, 3), a(3, 2), a(3, 1), a(3, 0)],
            vec![b(3, 3), b(3, 2), b(3, 1)],
            vec![a(2, 2), a(2, 1)],
            vec![b(2, 2)],
        ],
        _ => [
            vec![b(0, 0), b(1, 0), b(2, 0), b(3, 0), b(4, 0)],
            vec![a(0, 0), a(1, 0), a(2, 0), a(3, 0)],
            vec![b(1, 1), b(2, 1), b(3, 1)],
            vec![a(1, 1), a(2, 1)],
            vec![b(2, 2)],
        ],
    }
}

/// The factorial of what three powers sum to, over theirs.
fn times(powers: [usize; 3]) -> i64 {
    let factorial = |n: usize| (1..=n as i64).product::<i64>();
    powers.iter().fold(factorial(powers.iter().sum()), |all, &n| all / factorial(n))
}

/// 18, 19 and 32.
fn check(numbers: &[i32], side: usize) -> Result<(), Refusal> {
    if numbers.len() != NUMBERS_PER_CORNER {
        return refuse(18, numbers.len());
    }
    if let Some(place) = numbers.iter().position(|&number| !(-(1 << 27)..=1 << 27).contains(&number)) {
        return refuse(19, place);
    }
    if side > 3 {
        return refuse(32, side);
    }
    Ok(())
}

/// The quartic Bernstein sum, rounded once.
pub(crate) fn point(numbers: &[i32], side: usize, weights: [usize; 3], parts: usize) -> [i32; 3] {
    let rows = triangle(side);
    let [u, v, w] = weights.map(|weight| weight as i64);
    [0, 1, 2].map(|axis| {
        let mut sum = 0;
        for (n, row) in rows.iter().enumerate() {
            for (m, &control) in row.iter().enumerate() {
                let l = 4 - n - m;
                let weight = times([l, m, n]) * u.pow(l as u32) * v.pow(m as u32) * w.pow(n as u32);
                sum += weight * i64::from(numbers[3 * control + axis]);
            }
        }
        round(sum, (parts as i64).pow(4)) as i32
    })
}

/// The derivatives of the quartic towards the tail and towards the centre, times the cube of the weights' sum: four times
/// the cubic Bernstein sums of the differences between control points that lie next to each other.
pub(crate) fn derivatives(numbers: &[i32], side: usize, weights: [usize; 3]) -> [[i64; 3]; 2] {
    let rows = triangle(side);
    let [u, v, w] = weights.map(|weight| weight as i64);
    [(0, 1), (1, 0)].map(|(down, along)| {
        [0, 1, 2].map(|axis| {
            let control = |n: usize, m: usize| i64::from(numbers[3 * rows[n][m] + axis]);
            let mut sum = 0;
            for n in 0..4 {
                for m in 0..4 - n {
                    let l = 3 - n - m;
                    let weight = times([l, m, n]) * u.pow(l as u32) * v.pow(m as u32) * w.pow(n as u32);
                    sum += 4 * weight * (control(n + down, m + along) - control(n, m));
                }
            }
            sum
        })
    })
}

/// One sample: faults 18, 19, 32 and 33.
pub fn sample(numbers: &[i32], side: usize, weights: [usize; 3], parts: usize) -> Result<[i32; 3], Refusal> {
    check(numbers, side)?;
    let sum: u128 = weights.iter().map(|&weight| weight as u128).sum();
    if !(1..=16).contains(&parts) || sum != parts as u128 {
        return refuse(33, parts);
    }
    Ok(point(numbers, side, weights, parts))
}

/// The tangents at one sample, under its checks.
pub fn sample_tangents(
    numbers: &[i32],
    side: usize,
    weights: [usize; 3],
    parts: usize,
) -> Result<[[i64; 3]; 2], Refusal> {
    sample(numbers, side, weights, parts)?;
    Ok(derivatives(numbers, side, weights))
}

/// All samples of a triangle into the beginning of the list, row by row from the side inwards, each row from the head:
/// faults 18, 19, 32, 33 and 255.
pub fn sample_triangle(numbers: &[i32], side: usize, parts: usize, points: &mut [i32]) -> Result<(), Refusal> {
    check(numbers, side)?;
    if !(1..=16).contains(&parts) {
        return refuse(33, parts);
    }
    let all: Vec<i32> = (0..=parts)
        .flat_map(|k| (0..=parts - k).map(move |j| [parts - k - j, j, k]))
        .flat_map(|weights| point(numbers, side, weights, parts))
        .collect();
    if points.len() < all.len() {
        return refuse(LENT_TOO_SHORT, all.len());
    }
    points[..all.len()].copy_from_slice(&all);
    Ok(())
}

/// The small triangles of a quad-net, each as three samples in ticks, wound as the quad-net's ends E0, E1, E2, E3 go round.
pub fn small_triangles(numbers: &[i32], parts: usize) -> Vec<[[i32; 3]; 3]> {
    let mut all = Vec::new();
    for side in 0..4 {
        let at = |j: usize, k: usize| point(numbers, side, [parts - j - k, j, k], parts);
        for k in 0..parts {
            for j in 0..parts - k {
                all.push([at(j, k), at(j + 1, k), at(j, k + 1)]);
                if j + k + 1 < parts {
                    all.push([at(j + 1, k), at(j + 1, k + 1), at(j, k + 1)]);
                }
            }
        }
        // from E0 to E1 and from E2 to E3 is the way round, from E2 to E1 and from E0 to E3 is against it
        if side % 2 == 1 {
            let from = all.len() - parts * parts;
            all[from..].iter_mut().for_each(|triangle| triangle.swap(1, 2));
        }
    }
    all
}
