//! Signed whole numbers of 256 bits, as much of them as the exact construction needs. What does not fit is a panic.

use std::cmp::Ordering;

const WORDS: usize = 4;

/// Sign and size; the lowest word first, and no negative zero.
#[derive(Clone, Copy, Debug, PartialEq, Eq)]
pub struct Wide {
    negative: bool,
    size: [u64; WORDS],
}

impl Wide {
    pub const ZERO: Wide = Wide { negative: false, size: [0; WORDS] };

    pub fn of(number: i64) -> Wide {
        Wide { negative: number < 0, size: [number.unsigned_abs(), 0, 0, 0] }
    }

    fn signed(negative: bool, size: [u64; WORDS]) -> Wide {
        Wide { negative: negative && size != [0; WORDS], size }
    }

    pub fn negated(self) -> Wide {
        Wide::signed(!self.negative, self.size)
    }

    /// Its size, signs dropped.
    pub fn size(self) -> Wide {
        Wide::signed(false, self.size)
    }

    fn compare_sizes(&self, other: &Wide) -> Ordering {
        self.size.iter().rev().cmp(other.size.iter().rev())
    }

    pub fn plus(self, other: Wide) -> Wide {
        if self.negative == other.negative {
            let mut size = [0; WORDS];
            let mut carry = 0;
            for (word, (&a, &b)) in size.iter_mut().zip(self.size.iter().zip(&other.size)) {
                let sum = u128::from(a) + u128::from(b) + carry;
                *word = sum as u64;
                carry = sum >> 64;
            }
            assert_eq!(carry, 0, "a sum of more than 256 bits");
            return Wide::signed(self.negative, size);
        }
        let (large, small) = if self.compare_sizes(&other).is_lt() { (other, self) } else { (self, other) };
        let mut size = [0; WORDS];
        let mut borrow = false;
        for (word, (&a, &b)) in size.iter_mut().zip(large.size.iter().zip(&small.size)) {
            let (difference, under) = a.overflowing_sub(b);
            let (difference, again) = difference.overflowing_sub(u64::from(borrow));
            *word = difference;
            borrow = under || again;
        }
        Wide::signed(large.negative, size)
    }

    pub fn minus(self, other: Wide) -> Wide {
        self.plus(other.negated())
    }

    pub fn times(self, factor: i64) -> Wide {
        let mut size = [0; WORDS];
        let mut carry = 0;
        for (word, &a) in size.iter_mut().zip(&self.size) {
            let product = u128::from(a) * u128::from(factor.unsigned_abs()) + carry;
            *word = product as u64;
            carry = product >> 64;
        }
        assert_eq!(carry, 0, "a product of more than 256 bits");
        Wide::signed(self.negative != (factor < 0), size)
    }

    /// The quotient by a positive number, cut towards zero, and whether something is left over.
    fn divided(self, divisor: i64) -> (Wide, bool) {
        assert!(divisor > 0, "a divisor has to be positive");
        let divisor = divisor as u128;
        let mut size = [0; WORDS];
        let mut rest = 0;
        for (word, &a) in size.iter_mut().zip(&self.size).rev() {
            let part = rest << 64 | u128::from(a);
            *word = (part / divisor) as u64;
            rest = part % divisor;
        }
        (Wide::signed(self.negative, size), rest != 0)
    }

    /// The quotient by a positive number that divides it.
    pub fn over(self, divisor: i64) -> Wide {
        let (quotient, left) = self.divided(divisor);
        assert!(!left, "a division by {divisor} leaves something over");
        quotient
    }

    /// The quotient by a positive number, rounded away from zero.
    pub fn over_up(self, divisor: i64) -> Wide {
        let (quotient, left) = self.divided(divisor);
        if left {
            quotient.plus(Wide::of(if self.negative { -1 } else { 1 }))
        } else {
            quotient
        }
    }

    /// A number from 0 on that fits 63 bits.
    pub fn small(self) -> i64 {
        assert!(!self.negative && self.size[1..] == [0; WORDS - 1], "a small number");
        i64::try_from(self.size[0]).expect("63 bits")
    }
}

impl PartialOrd for Wide {
    fn partial_cmp(&self, other: &Wide) -> Option<Ordering> {
        Some(self.cmp(other))
    }
}

impl Ord for Wide {
    fn cmp(&self, other: &Wide) -> Ordering {
        match (self.negative, other.negative) {
            (false, true) => Ordering::Greater,
            (true, false) => Ordering::Less,
            (false, false) => self.compare_sizes(other),
            (true, true) => other.compare_sizes(self),
        }
    }
}

#[cfg(test)]
mod tests {
    use super::*;

    /// Numbers of up to 110 bits, beside the compiler's own of 128.
    #[test]
    fn as_the_compilers_numbers() {
        let mut state = 1u64;
        let mut bits = || {
            state = state.wrapping_mul(0x5851_f42d_4c95_7f2d).wrapping_add(0x1405_7b7e_f767_814f);
            state >> 13
        };
        let wide = |n: i128| {
            let part = |from: u32| Wide::of((n.unsigned_abs() >> from & 0xff_ffff_ffff) as i64);
            let size = part(80).times(1 << 40).plus(part(40)).times(1 << 40).plus(part(0));
            if n < 0 {
                size.negated()
            } else {
                size
            }
        };
        for _ in 0..10_000 {
            let mut any = || (i128::from(bits()) << (bits() % 60)) - (i128::from(bits()) << (bits() % 60));
            let (a, b) = (any(), any());
            let c = (bits() >> (bits() % 51)) as i64 + 1;
            assert_eq!(wide(a).plus(wide(b)), wide(a + b));
            assert_eq!(wide(a).minus(wide(b)), wide(a - b));
            assert_eq!(wide(a).minus(wide(a)), Wide::ZERO);
            assert_eq!(wide(a).cmp(&wide(b)), a.cmp(&b));
            let short = a >> 50;
            assert_eq!(wide(short).times(-(c & 0xff_ffff)), wide(short * -i128::from(c & 0xff_ffff)));
            assert_eq!(wide(a).times(c).over(c), wide(a));
            assert_eq!(wide(a.abs()).over_up(c), wide((a.abs() + i128::from(c) - 1) / i128::from(c)));
            assert_eq!(wide(a).size(), wide(a.abs()));
        }
    }
}
