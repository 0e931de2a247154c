//! L11, coordinates rearranged for the archive and back: checks 30 and 31, and what the programs `archive` and `restore`
//! write.

use crate::{refuse, Refusal};

/// The most bytes that the programs take.
pub const MOST_BYTES: usize = 1_572_864;

fn check(numbers: usize, bytes: usize) -> Result<(), Refusal> {
    if numbers % 3 != 0 {
        return refuse(30, numbers);
    }
    if numbers.checked_mul(4) != Some(bytes) {
        return refuse(31, bytes);
    }
    Ok(())
}

/// Writes the bytes of the differences.
pub fn archive(numbers: &[i32], bytes: &mut [u8]) -> Result<(), Refusal> {
    let count = numbers.len();
    check(count, bytes.len())?;
    let (lower, upper) = bytes.split_at_mut(2 * count);
    let ((lowest, second), (third, highest)) = (lower.split_at_mut(count), upper.split_at_mut(count));
    for i in 0..count {
        let before = if i < 3 { 0 } else { numbers[i - 3] };
        let difference = numbers[i].wrapping_sub(before).to_le_bytes();
        lowest[i] = difference[0];
        second[i] = difference[1];
        third[i] = difference[2];
        highest[i] = difference[3];
    }
    Ok(())
}

/// Writes the numbers whose differences have these bytes.
pub fn restore(bytes: &[u8], numbers: &mut [i32]) -> Result<(), Refusal> {
    let count = numbers.len();
    check(count, bytes.len())?;
    let (lower, upper) = bytes.split_at(2 * count);
    let ((lowest, second), (third, highest)) = (lower.split_at(count), upper.split_at(count));
    for i in 0..count {
        let difference = i32::from_le_bytes([lowest[i], second[i], third[i], highest[i]]);
        let before = if i < 3 { 0 } else { numbers[i - 3] };
        numbers[i] = before.wrapping_add(difference);
    }
    Ok(())
}

/// What a program writes to standard output of what it reads, or else the line on standard error.
fn stream(input: &[u8], call: impl Fn(&[u8]) -> Result<Vec<u8>, Refusal>) -> Result<Vec<u8>, String> {
    if input.len() > MOST_BYTES {
        return Err(format!("standard input: more than {MOST_BYTES} bytes\n"));
    }
    call(input).map_err(|Refusal { number, place }| format!("refused {number} {place}\n"))
}

/// The program `archive`.
pub fn archive_stream(input: &[u8]) -> Result<Vec<u8>, String> {
    stream(input, |input| {
        let number = |four: &[u8]| i32::from_le_bytes(four.try_into().expect("four bytes"));
        let numbers: Vec<i32> = input.chunks_exact(4).map(number).collect();
        let mut bytes = vec![0; input.len()];
        archive(&numbers, &mut bytes).map(|()| bytes)
    })
}

/// The program `restore`.
pub fn restore_stream(input: &[u8]) -> Result<Vec<u8>, String> {
    stream(input, |input| {
        let mut numbers = vec![0; input.len() / 4];
        restore(input, &mut numbers).map(|()| numbers.iter().flat_map(|number| number.to_le_bytes()).collect())
    })
}
