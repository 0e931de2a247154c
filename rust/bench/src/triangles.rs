//! The whole surface as triangles: one call beside building all corners and sampling their four triangles each, which has
//! the same samples, those that several nets share once for each, and no indices.

use std::time::Duration;

use mahunopi::{Mesh, NUMBERS_PER_CORNER};
use shapes::{Random, Sharpness, Solid, Tables};

use crate::least;

/// The table of triangles, on a sharpened torus of 8,192 corners: all corners at one level, then each at a level of its
/// own of 1 to 16.
pub fn measure(budget: Duration) {
    println!();
    println!(
        "| levels | points | triangles | triangles, ns per triangle | million a second | build and sample_triangle, ns per \
              triangle | ratio | with tangents, ns per triangle | ratio |"
    );
    println!("|---|---|---|---|---|---|---|---|---|");
    let accepted = "an accepted mesh";
    let random = &mut Random::new(37);
    let Tables { coordinates, sides, corners, sharpness } =
        Tables::of(&Solid::torus(32, 64)).sharpened(Sharpness::Random, random);
    let mesh = Mesh::new(coordinates, sides, corners).with_sharpness(sharpness);
    let links = mahunopi::link(&mesh).expect(accepted);
    let count = links.len();
    let mut numbers = vec![0; NUMBERS_PER_CORNER * count];
    for level in [1, 4, 8, 16, 0] {
        let levels: Vec<u8> = (0..count).map(|_| if level == 0 { 1 + random.below(16) as u8 } else { level }).collect();
        let lengths = mahunopi::count_triangles(&mesh, &links, &levels, 0, count).expect(accepted);
        let (mut points, mut three) = (vec![0; lengths.points], vec![0; lengths.triangles]);
        let room: usize = levels.iter().map(|&level| 12 * mahunopi::sample_count(usize::from(level))).sum();
        let mut unshared = vec![0; room];
        let mut sampled = || {
            mahunopi::build_into(&mesh, &links, 0, count, &mut numbers).expect(accepted);
            let mut rest = &mut unshared[..];
            for (net, &level) in numbers.chunks(NUMBERS_PER_CORNER).zip(&levels) {
                for side in 0..4 {
                    let (samples, more) = rest.split_at_mut(3 * mahunopi::sample_count(usize::from(level)));
                    mahunopi::sample_triangle_into(net, side, usize::from(level), samples).expect(accepted);
                    rest = more;
                }
            }
        };
        let mut filled = || {
            mahunopi::triangles_into(&mesh, &links, &levels, 0, count, &mut points, &mut three).expect(accepted);
        };
        let pair = least(budget, &mut filled, &mut sampled);
        let mut tangents = vec![0; 2 * lengths.points];
        let shaded = least(
            budget,
            || {
                filled();
                mahunopi::tangents_into(&mesh, &links, &levels, 0, count, &mut tangents).expect(accepted);
            },
            &mut sampled,
        );
        let each = 1e9 / (lengths.triangles / 3) as f64;
        println!(
            "| {} | {} | {} | {:.2} | {:.1} | {:.2} | {:.2} | {:.2} | {:.2} |",
            if level == 0 { "1 to 16".to_string() } else { level.to_string() },
            lengths.points / 3,
            lengths.triangles / 3,
            each * pair.library,
            1e3 / (each * pair.library),
            each * pair.reference,
            pair.ratio(),
            each * shaded.library,
            shaded.ratio(),
        );
    }
}
