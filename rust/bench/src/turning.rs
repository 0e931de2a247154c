//! Turning faces beside linking the same mesh, and beside the independent implementation.

use std::time::Duration;

use mahunopi::Mesh;
use shapes::{Random, Tables};

use crate::least;

pub const HEADING: &str = "| mesh | numbers | sharpness | corners | faces turned | turning, ns per corner | linking \
     | turning over linking | plain | ratio |\n|---|---|---|---|---|---|---|---|---|---|";

/// A line of the table: the mesh with a third of its faces turned. What is turned is copied back before every call, in
/// both.
pub fn line(name: &str, word: &str, mut tables: Tables, budget: Duration) {
    let mut random = Random::new(13);
    let faces = tables.sides.len();
    (1..faces).filter(|_| random.once_in(3)).for_each(|face| tables.turn_face(face));
    let accepted = "a model with faces turned";

    let Tables { coordinates, sides, corners, sharpness } = &tables;
    let mut lent = [(tables.clone(), vec![0; faces], 0), (tables.clone(), vec![0; faces], 0)];
    let [(library, listing, count), (plain, plain_listing, plain_count)] = &mut lent;
    let turning = least(
        budget,
        || {
            library.corners.copy_from_slice(corners);
            library.sharpness.copy_from_slice(sharpness);
            *count = mahunopi::turn_into(coordinates, sides, &mut library.corners, &mut library.sharpness, listing)
                .expect(accepted);
        },
        || {
            plain.corners.copy_from_slice(corners);
            plain.sharpness.copy_from_slice(sharpness);
            *plain_count = reference::turn(coordinates, sides, &mut plain.corners, &mut plain.sharpness, plain_listing)
                .expect(accepted);
        },
    );
    assert!(lent[0] == lent[1], "{name}: the turned models differ");
    let [(turned_model, _, turned), _] = lent;

    let Tables { coordinates, sides, corners, sharpness } = turned_model;
    let mesh = Mesh::new(coordinates, sides, corners).with_sharpness(sharpness);
    let count = mesh.corners.len();
    let mut links = vec![0; count];
    let link = least(budget, || mahunopi::link_into(&mesh, &mut links).expect("what turning left"), || ());
    let each = 1e9 / count as f64;
    println!(
        "| {name} | {word} | {count} | {turned} | {:.1} | {:.1} | {:.2} | {:.1} | {:.2} |",
        each * turning.library,
        each * link.library,
        turning.library / link.library,
        each * turning.reference,
        turning.ratio(),
    );
}
