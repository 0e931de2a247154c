//! Pages of the border report with both: the next page of a page and a file, and two pages as one.

use mahunopi::raw;
use reference::{Page, Refusal};

use crate::{answer, same, UNTOUCHED};

/// The next page of a page and a file of `length` bytes, of which `bytes` holds the first ones.
pub fn report(page: &Page, bytes: &[u8], length: u64) -> Result<Page, Refusal> {
    let mut numbers = page.numbers();
    let mut place = UNTOUCHED;
    // SAFETY: the pointer goes with the length of its list
    let number = unsafe { raw::mahunopi_report(bytes.as_ptr(), bytes.len(), length, &mut numbers, &mut place) };
    let result = reference::report(page, bytes, length);
    assert_eq!(answer(number, place), result.map(|_| ()), "the report answers otherwise");
    let expected = result.unwrap_or(*page).numbers();
    if length < 11 && bytes.len() >= 11 && result.is_ok() {
        // of a file shorter than its header of which more bytes are held, 01 does not say which of 1 to 3 it is
        let [one, two, three] = [3, 4, 5].map(|line| numbers[line] - page.numbers()[line]);
        assert_eq!((one + two + three, numbers[0]), (1, expected[0]), "not one more refusal");
        same("page", &[&numbers[1..3], &numbers[6..]].concat(), &[&expected[1..3], &expected[6..]].concat());
        return Ok(Page::of_numbers(numbers));
    }
    same("page", &numbers, &expected);
    result
}

/// Two pages as one.
pub fn merge(page: &Page, other: &Page) -> Result<Page, Refusal> {
    let mut numbers = page.numbers();
    let others = other.numbers();
    let mut place = UNTOUCHED;
    // SAFETY: both are pages of 21 numbers
    let number = unsafe { raw::mahunopi_merge(&others, &mut numbers, &mut place) };
    let result = reference::merge(page, other);
    assert_eq!(answer(number, place), result.map(|_| ()), "merging answers otherwise");
    same("page", &numbers, &result.unwrap_or(*page).numbers());
    assert_eq!(others, other.numbers(), "the page that is not lent changes");
    result
}
