//! Samples of a patch (L12): a call for each sample and one for all of a triangle, beside the independent implementation
//! and beside each other.

use std::time::Duration;

use mahunopi::{Mesh, NUMBERS_PER_CORNER};
use shapes::{Random, Sharpness, Solid, Tables};

use crate::least;

/// One sample of a side's triangle of a quad-net, at three weights.
type Sampler<'a> = &'a dyn Fn(&[i32], usize, [usize; 3]) -> [i32; 3];

/// All weights in `parts` parts, in the order of a triangle's samples.
fn weights(parts: usize) -> Vec<[usize; 3]> {
    (0..=parts).flat_map(|k| (0..=parts - k).map(move |j| [parts - k - j, j, k])).collect()
}

/// The table of samples, on the four sides of some quad-nets of a sharpened torus in turn.
pub fn measure(budget: Duration) {
    println!();
    println!(
        "| N | samples of a triangle | one by one, ns per sample | plain | ratio | by triangles, ns per sample | plain | ratio \
              | one by one over by triangles |"
    );
    println!("|---|---|---|---|---|---|---|---|---|");
    let accepted = "an accepted mesh";
    let Tables { coordinates, sides, corners, sharpness } =
        Tables::of(&Solid::torus(16, 16)).sharpened(Sharpness::Random, &mut Random::new(12));
    let mesh = Mesh::new(coordinates, sides, corners).with_sharpness(sharpness);
    let links = mahunopi::link(&mesh).expect(accepted);
    let numbers = mahunopi::build(&mesh, &links, 100, 8).expect(accepted);
    let nets: Vec<&[i32]> = numbers.chunks(NUMBERS_PER_CORNER).collect();
    let triangles: Vec<(&[i32], usize)> = nets.iter().flat_map(|&net| (0..4).map(move |side| (net, side))).collect();

    for parts in [4, 8, 16] {
        let all = weights(parts);
        let length = 3 * all.len();
        let lists = || vec![0; length * triangles.len()];
        let (mut singles, mut plain) = (lists(), lists());
        let one_by_one = |list: &mut [i32], sample: Sampler| {
            let mut points = list.chunks_mut(3);
            for &(net, side) in &triangles {
                for &weights in &all {
                    points.next().expect("a point for each sample").copy_from_slice(&sample(net, side, weights));
                }
            }
        };
        let library = |net: &[i32], side: usize, weights: [usize; 3]| {
            mahunopi::sample(net, side, weights, parts).expect(accepted)
        };
        let reference = |net: &[i32], side: usize, weights: [usize; 3]| {
            reference::sample(net, side, weights, parts).expect(accepted)
        };
        let single = least(budget, || one_by_one(&mut singles, &library), || one_by_one(&mut plain, &reference));
        assert!(singles == plain, "N = {parts}: the samples differ");

        let (mut whole, mut plain) = (lists(), lists());
        let by_triangles = |list: &mut [i32]| {
            for (&(net, side), points) in triangles.iter().zip(list.chunks_mut(length)) {
                mahunopi::sample_triangle_into(net, side, parts, points).expect(accepted);
            }
        };
        let plainly = |list: &mut [i32]| {
            for (&(net, side), points) in triangles.iter().zip(list.chunks_mut(length)) {
                reference::sample_triangle(net, side, parts, points).expect(accepted);
            }
        };
        let triangle = least(budget, || by_triangles(&mut whole), || plainly(&mut plain));
        assert!(whole == plain && whole == singles, "N = {parts}: the triangles differ");
        let beside = least(budget, || one_by_one(&mut singles, &library), || by_triangles(&mut whole));
        let each = 1e9 / (all.len() * triangles.len()) as f64;
        println!(
            "| {parts} | {} | {:.1} | {:.1} | {:.2} | {:.2} | {:.1} | {:.3} | {:.1} |",
            all.len(),
            each * single.library,
            each * single.reference,
            single.ratio(),
            each * triangle.library,
            each * triangle.reference,
            triangle.ratio(),
            beside.ratio(),
        );
    }
}
