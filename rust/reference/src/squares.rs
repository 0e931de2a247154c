//! L7, is it all squares? The lowest face that has not four sides, else the lowest vertex that has not four corners,
//! with the number of side counts read, and what the program `squares` prints.

use crate::{check, Lists, Refusal};

/// What is irregular in a mesh.
#[derive(Clone, Copy, Debug, PartialEq, Eq)]
pub enum Irregular {
    Face(usize),
    Vertex(usize),
    None,
}

/// The search, and the side counts that it read.
pub fn irregular(lists: Lists) -> Result<(Irregular, usize), Refusal> {
    check(lists)?;
    let mut read = 0;
    let odd = lists.sides.iter().inspect(|_| read += 1).position(|&side_count| side_count != 4);
    if let Some(face) = odd {
        return Ok((Irregular::Face(face), read));
    }
    let mut named: Vec<u16> = lists.corners.to_vec();
    named.sort_unstable();
    // every vertex is named: the first whose run of corners is not four long
    let mut rest = &named[..];
    while let Some(&vertex) = rest.first() {
        let run = rest.iter().take_while(|&&other| other == vertex).count();
        if run != 4 {
            return Ok((Irregular::Vertex(usize::from(vertex)), read));
        }
        rest = &rest[run..];
    }
    Ok((Irregular::None, read))
}

/// The line of an answer.
pub(crate) fn line(answer: Result<(Irregular, usize), Refusal>) -> String {
    match answer {
        Ok((Irregular::Face(face), read)) => format!("face {face} read {read}\n"),
        Ok((Irregular::Vertex(vertex), read)) => format!("vertex {vertex} read {read}\n"),
        Ok((Irregular::None, read)) => format!("none read {read}\n"),
        Err(Refusal { number, place }) => format!("refused {number} {place}\n"),
    }
}
