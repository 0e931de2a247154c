//! The border report of a mesh's file beside building all corners of the same mesh, and beside the independent
//! implementation. The report may take `LIMIT` times as long as building.

use std::time::Duration;

use mahunopi::{Mesh, Page, NUMBERS_PER_CORNER};
use reference::{encode, Lists};
use shapes::Tables;

use crate::least;

pub const LIMIT: f64 = 3.3;
pub const HEADING: &str = "| mesh | numbers | sharpness | corners | report, ns per corner | building all \
     | report over building | plain | ratio |\n|---|---|---|---|---|---|---|---|---|";

/// A line of the table, of the mesh's file in version 2; how many times as long as building the report takes.
pub fn line(name: &str, word: &str, tables: Tables, budget: Duration) -> f64 {
    let Tables { coordinates, sides, corners, sharpness } = tables;
    let mesh = Mesh::new(coordinates, sides, corners).with_sharpness(sharpness);
    let lists = Lists {
        coordinates: &mesh.coordinates,
        sides: &mesh.sides,
        corners: &mesh.corners,
        sharpness: &mesh.sharpness,
    };
    let bytes = encode(lists, 2);
    let length = bytes.len() as u64;
    let count = mesh.corners.len();
    let accepted = "an accepted mesh";
    let links = mahunopi::link(&mesh).expect(accepted);
    let mut output = vec![0; NUMBERS_PER_CORNER * count];
    let (mut page, mut plain) = (Page::default(), reference::Page::default());
    let beside = least(
        budget,
        || {
            page = Page::default();
            page.offer(&bytes).expect("the all-zero page");
        },
        || mahunopi::build_into(&mesh, &links, 0, count, &mut output).expect(accepted),
    );
    let report = least(
        budget,
        || {
            page = Page::default();
            page.offer(&bytes).expect("the all-zero page");
        },
        || plain = reference::report(&reference::Page::default(), &bytes, length).expect("the all-zero page"),
    );
    assert!(page.numbers() == plain.numbers(), "{name}: the pages differ");
    assert!(page.corners == count as u64, "{name}: the mesh is refused");
    let each = 1e9 / count as f64;
    println!(
        "| {name} | {word} | {count} | {:.0} | {:.0} | {:.2} | {:.0} | {:.2} |",
        each * beside.library,
        each * beside.reference,
        beside.ratio(),
        each * report.reference,
        report.ratio(),
    );
    beside.ratio()
}
