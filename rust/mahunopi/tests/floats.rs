//! A control point in floats: null and odd lengths meet a refusal, and nothing but the place is written then.

use std::ptr::null;

use mahunopi::raw;

const UNTOUCHED: u64 = 0x1234_5678_9abc_def0;

/// The answer and the place; the floats and `pairs` are to be left alone.
fn refused(numbers: *const i32, count: usize, point: usize) -> (u32, u64) {
    let mut floats = [7.5; 6];
    let mut pairs = 9;
    let mut place = UNTOUCHED;
    let number = unsafe { raw::mahunopi_floats(numbers, count, point, &mut floats, &mut pairs, &mut place) };
    assert_eq!((floats, pairs), ([7.5; 6], 9));
    (number, place)
}

#[test]
fn lengths_that_are_not_123() {
    let numbers = [0; 123];
    assert_eq!(refused(null(), 0, 0), (18, 0));
    assert_eq!(refused(numbers.as_ptr(), 122, 41), (18, 122));
    // a length that names more numbers is refused before they are looked at
    assert_eq!(refused(numbers.as_ptr(), 124, 0), (18, 124));
    assert_eq!(refused(numbers.as_ptr(), 1 << 32 | 123, 0), (18, 1 << 32 | 123));
}

#[test]
fn points_beyond_32_bits() {
    let numbers = [0; 123];
    assert_eq!(refused(numbers.as_ptr(), 123, 1 << 32), (20, 1 << 32));
    assert_eq!(refused(numbers.as_ptr(), 123, usize::MAX), (20, usize::MAX as u64));
}
