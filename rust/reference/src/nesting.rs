//! L4, the nested grids as a table: checks 21 to 23, the listing, and what the program `nest` prints. The listing takes
//! the lowest of a heap of ready bodies again and again.

use std::cmp::Reverse;
use std::collections::BinaryHeap;

use crate::{refuse, Refusal};

/// The most bodies of a table.
pub const MAX_BODIES: usize = 256;
/// What a body has in the place of a holder's number where it hangs in the Sun's grid.
pub const SUN: u16 = 65_535;

/// Whether the chain of a body ends at the Sun, in a table whose numbers are all bodies or the Sun.
fn ends(holders: &[u16], body: usize) -> bool {
    let mut met = vec![false; holders.len()];
    let mut at = body;
    while !met[at] {
        met[at] = true;
        match holders[at] {
            SUN => return true,
            holder => at = usize::from(holder),
        }
    }
    false
}

/// The bodies in their order, for a listing of `room` entries.
pub fn nest(holders: &[u16], room: usize) -> Result<Vec<u16>, Refusal> {
    let bodies = holders.len();
    if bodies == 0 || bodies > MAX_BODIES || room != bodies {
        return refuse(21, 0);
    }
    if let Some(body) = holders.iter().position(|&h| h != SUN && usize::from(h) >= bodies) {
        return refuse(22, body);
    }
    if let Some(body) = (0..bodies).find(|&body| !ends(holders, body)) {
        return refuse(23, body);
    }
    let hanging = |holder: u16| (0..bodies as u16).filter(move |&body| holders[usize::from(body)] == holder);
    let mut ready: BinaryHeap<Reverse<u16>> = hanging(SUN).map(Reverse).collect();
    let mut listing = Vec::new();
    while let Some(Reverse(body)) = ready.pop() {
        listing.push(body);
        ready.extend(hanging(body).map(Reverse));
    }
    Ok(listing)
}

/// The table of a text, one line for each body; the number of the first line, from 1, that is neither `sun` nor a
/// number. A table is read no further than one body past the most.
fn table(text: &[u8]) -> Result<Vec<u16>, usize> {
    let mut lines: Vec<&[u8]> = text.split(|&byte| byte == b'\n').collect();
    if lines.last().map_or(false, |line| line.is_empty()) {
        lines.pop();
    }
    let mut holders = Vec::new();
    for (number, line) in lines.iter().take(MAX_BODIES + 1).enumerate() {
        if *line == b"sun" {
            holders.push(SUN);
        } else if (1..=9).contains(&line.len()) && line.iter().all(u8::is_ascii_digit) {
            let value: u64 = std::str::from_utf8(line).expect("digits").parse().expect("nine digits");
            holders.push(u16::try_from(value).unwrap_or(SUN - 1));
        } else {
            return Err(number + 1);
        }
    }
    Ok(holders)
}

/// A body and those that hang in it, each a step further in.
fn picture(holders: &[u16], holder: u16, depth: usize, out: &mut String) {
    for body in (0..holders.len() as u16).filter(|&body| holders[usize::from(body)] == holder) {
        out.push_str(&format!("{}{body}\n", "  ".repeat(depth)));
        picture(holders, body, depth + 1, out);
    }
}

/// What the program `nest` prints of a text, or its line on standard error for one that is no table.
pub fn nest_lines(text: &[u8]) -> Result<String, String> {
    let holders =
        table(text).map_err(|line| format!("standard input: line {line} is neither a body's number nor sun\n"))?;
    Ok(match nest(&holders, holders.len()) {
        Err(Refusal { number, place }) => format!("refused {number} {place}\n"),
        Ok(listing) => {
            let mut out: String = listing.iter().map(|body| format!("{body}\n")).collect();
            out.push_str("\nsun\n");
            picture(&holders, SUN, 1, &mut out);
            out
        }
    })
}
