//! The faults 4 to 14 of a mesh, with 27 and 28, and its link table. Every step is linear in the corners: they are sorted by vertex
//! once, and the edges of one vertex meet in a table with an entry for each vertex.

use crate::{refuse, Lists, Refusal, FEWEST, LARGEST_COORDINATE, MAX_CORNERS, MAX_FACES, MAX_VERTICES, MOST, SHARPEST};

/// Where the corners of a face begin and end, and the neighbours of a corner in its face.
pub(crate) struct Order {
    next: Vec<u16>,
    previous: Vec<u16>,
}

impl Order {
    /// The side counts have to sum to `corners`.
    pub(crate) fn new(sides: &[u8], corners: usize) -> Order {
        let mut next = Vec::with_capacity(corners);
        let mut previous = Vec::with_capacity(corners);
        let mut first = 0u16;
        for &side_count in sides {
            let last = first + u16::from(side_count) - 1;
            next.extend(first + 1..=last);
            next.push(first);
            previous.push(last);
            previous.extend(first..last);
            first = last + 1;
        }
        Order { next, previous }
    }

    pub(crate) fn next(&self, corner: usize) -> usize {
        usize::from(self.next[corner])
    }

    pub(crate) fn previous(&self, corner: usize) -> usize {
        usize::from(self.previous[corner])
    }
}

/// The first entry that is wrong. Nearly always none is, so a pass without branches looks first.
fn find<T>(list: &[T], wrong: impl Fn(&T) -> bool) -> Option<usize> {
    let any = list.iter().fold(false, |any, entry| any | wrong(entry));
    any.then(|| list.iter().position(wrong)).flatten()
}

/// The faults 4, 27, 5 to 8 and 28, which need no table.
fn check_lists(lists: Lists) -> Result<(), Refusal> {
    let Lists { coordinates, sides, corners, sharpness } = lists;
    let vertices = coordinates.len() / 3;
    let out_of = |count: usize, most: usize| count == 0 || count > most;
    if coordinates.len() % 3 != 0
        || out_of(vertices, MAX_VERTICES)
        || out_of(sides.len(), MAX_FACES)
        || out_of(corners.len(), MAX_CORNERS)
    {
        return refuse(4, 0);
    }
    if sharpness.len() != 2 * corners.len() {
        return refuse(27, sharpness.len());
    }
    if let Some(face) = find(sides, |&s| usize::from(s) < FEWEST || usize::from(s) > MOST) {
        return refuse(5, face);
    }
    let sum: usize = sides.iter().map(|&s| usize::from(s)).sum();
    if sum != corners.len() {
        return refuse(6, sum);
    }
    let beyond = |&c: &i32| !(-LARGEST_COORDINATE..=LARGEST_COORDINATE).contains(&c);
    if let Some(position) = find(coordinates, beyond) {
        return refuse(7, position);
    }
    if let Some(corner) = find(corners, |&v| usize::from(v) >= vertices) {
        return refuse(8, corner);
    }
    if let Some(position) = find(sharpness, |&s| s > SHARPEST) {
        return refuse(28, position);
    }
    Ok(())
}

/// What no face, corner or vertex has for a number.
const NEVER: u16 = u16::MAX;

/// The faults 4 to 9, 27 and 28, which look at no face but each by itself.
pub(crate) fn check_faces(lists: Lists) -> Result<(), Refusal> {
    check_lists(lists)?;
    // 9: the face that last named each vertex
    let mut named_by = vec![NEVER; lists.coordinates.len() / 3];
    let mut corner = 0;
    for (face, &side_count) in lists.sides.iter().enumerate() {
        for &vertex in &lists.corners[corner..corner + usize::from(side_count)] {
            let last = &mut named_by[usize::from(vertex)];
            if *last == face as u16 {
                return refuse(9, corner);
            }
            *last = face as u16;
            corner += 1;
        }
    }
    Ok(())
}

/// The faults 4 to 13, 27 and 28; the order of the corners and the links of a mesh that has none.
pub(crate) fn check_mesh(lists: Lists) -> Result<(Order, Vec<u16>), Refusal> {
    check_faces(lists)?;
    let corners = lists.corners;
    let vertices = lists.coordinates.len() / 3;

    // the corners sorted by vertex, those of a vertex in rising order: vertex v has sorted[start[v]..start[v + 1]]
    let mut start = vec![0u16; vertices + 1];
    for &vertex in corners {
        start[usize::from(vertex) + 1] += 1;
    }
    for vertex in 0..vertices {
        start[vertex + 1] += start[vertex];
    }
    let mut sorted = vec![0u16; corners.len()];
    let mut free = start.clone();
    for (corner, &vertex) in corners.iter().enumerate() {
        let position = &mut free[usize::from(vertex)];
        sorted[usize::from(*position)] = corner as u16;
        *position += 1;
    }
    let of_vertex = |vertex: usize| &sorted[usize::from(start[vertex])..usize::from(start[vertex + 1])];

    // 10 and the links: towards[t] is the corner that leaves the vertex at hand towards t
    let order = Order::new(lists.sides, corners.len());
    let mut towards = vec![(NEVER, 0u16); vertices];
    let mut links = vec![NEVER; corners.len()];
    let mut repeated = usize::MAX;
    let mut linked = 0;
    for vertex in 0..vertices {
        for &corner in of_vertex(vertex) {
            let target = corners[order.next(usize::from(corner))];
            let entry = &mut towards[usize::from(target)];
            if entry.0 == vertex as u16 {
                repeated = repeated.min(usize::from(corner));
            } else {
                *entry = (vertex as u16, corner);
            }
        }
        for &corner in of_vertex(vertex) {
            let source = corners[order.previous(usize::from(corner))];
            let (from, leaving) = towards[usize::from(source)];
            if from == vertex as u16 {
                links[usize::from(leaving)] = corner;
                linked += 1;
            }
        }
    }
    if repeated != usize::MAX {
        return refuse(10, repeated);
    }
    if linked != corners.len() {
        let alone = links.iter().position(|&l| l == NEVER);
        return refuse(11, alone.expect("a corner without a link"));
    }

    for vertex in 0..vertices {
        if !(FEWEST..=MOST).contains(&of_vertex(vertex).len()) {
            return refuse(12, vertex);
        }
    }
    for vertex in 0..vertices {
        let ring = of_vertex(vertex);
        let lowest = ring[0];
        let mut corner = links[usize::from(lowest)];
        let mut met = 1;
        while corner != lowest {
            corner = links[usize::from(corner)];
            met += 1;
        }
        if met != ring.len() {
            return refuse(13, vertex);
        }
    }
    Ok((order, links))
}

/// The first fault of 4 to 13, 27 and 28.
pub fn check(lists: Lists) -> Result<(), Refusal> {
    check_mesh(lists).map(|_| ())
}

/// The link table of an accepted mesh.
pub fn links_of(lists: Lists) -> Result<Vec<u16>, Refusal> {
    check_mesh(lists).map(|(_, links)| links)
}

/// Linking: fills the lent table, or leaves it as it is and says why.
pub fn link(lists: Lists, links: &mut [u16]) -> Result<(), Refusal> {
    let (_, table) = check_mesh(lists)?;
    if links.len() != table.len() {
        return refuse(14, links.len());
    }
    links.copy_from_slice(&table);
    Ok(())
}
