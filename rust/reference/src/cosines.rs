//! The cosine table: row m has the m numbers 2^30 cos(2 pi k / m), rounded to the nearest. They are computed here, in
//! whole numbers over 2^60, when the program is compiled.

use crate::{FEWEST, MOST};

/// The table's unit, 2^30.
pub const ONE: i64 = 1 << 30;

/// What stands for 1 while a number is computed.
const FINE: i128 = 1 << 60;

/// The arc of tangent 1 / x, by its series.
const fn arc_tangent(x: i128) -> i128 {
    let mut power = FINE / x;
    let mut sum = 0;
    let mut n = 1;
    while power != 0 {
        sum += power / n;
        // the next power, with its sign
        power = -power / (x * x);
        n += 2;
    }
    sum
}

/// By Machin's formula.
const PI: i128 = 4 * (4 * arc_tangent(5) - arc_tangent(239));

/// 2^30 cos(2 pi k / m) to the nearest, by the cosine's series at an angle of at most pi.
const fn computed(m: usize, k: usize) -> i64 {
    // the cosine of an angle beyond pi is that of what is left to the full turn
    let steps = if 2 * k > m { m - k } else { k };
    let angle = 2 * PI * steps as i128 / m as i128;
    let mut term = FINE;
    let mut sum = 0;
    let mut n = 0;
    while term != 0 {
        sum += term;
        term = -(term * angle / FINE * angle / FINE) / ((n + 1) * (n + 2));
        n += 2;
    }
    // what is lost on the way is far below 2^-50
    let step = FINE / ONE as i128;
    let twice = 2 * sum + step;
    twice.div_euclid(2 * step) as i64
}

const ROWS: [[i64; MOST]; MOST - FEWEST + 1] = {
    let mut rows = [[0; MOST]; MOST - FEWEST + 1];
    let mut m = FEWEST;
    while m <= MOST {
        let mut k = 0;
        while k < m {
            rows[m - FEWEST][k] = computed(m, k);
            k += 1;
        }
        m += 1;
    }
    rows
};

/// C(m, k), for m from 3 to 16; k is read modulo m.
pub const fn cosine(m: usize, k: usize) -> i64 {
    ROWS[m - FEWEST][k % m]
}

#[cfg(test)]
mod tests {
    use super::*;

    #[test]
    fn every_number_is_the_nearest_to_the_real_cosine() {
        for m in FEWEST..=MOST {
            for k in 0..m {
                let real = ONE as f64 * (std::f64::consts::TAU * k as f64 / m as f64).cos();
                assert!((cosine(m, k) as f64 - real).abs() < 0.499, "row {m}, number {k}");
            }
        }
    }

    #[test]
    fn what_is_known_by_hand() {
        assert_eq!(ROWS[0][..3], [ONE, -ONE / 2, -ONE / 2]);
        assert_eq!(ROWS[1][..4], [ONE, 0, -ONE, 0]);
        assert_eq!(ROWS[3][..6], [ONE, ONE / 2, -ONE / 2, -ONE, -ONE / 2, ONE / 2]);
        // every second number of row 16 is in row 8
        for k in 0..8 {
            assert_eq!(cosine(16, 2 * k), cosine(8, k));
        }
    }
}
