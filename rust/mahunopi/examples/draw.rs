//! What a graphics card takes of a .dms file: a buffer of vertices with normals and a buffer of indices, closed and wound
//! counter-clockwise seen from outside, each corner's patches at a level, 1 to 16.
//!
//!     cargo run --release --offline --example draw -- ../meshes/torus.dms 8

use std::{env, error::Error, fs};

use mahunopi::{decode, link, tangents, triangles_all};

struct Vertex {
    /// In grid steps.
    at: [f32; 3],
    /// Of length 1.
    normal: [f32; 3],
}

fn main() -> Result<(), Box<dyn Error>> {
    let name = env::args().nth(1).ok_or("usage: draw FILE [LEVEL]")?;
    let level = env::args().nth(2).map_or(Ok(8), |word| word.parse())?;
    let mesh = decode(&fs::read(name)?)?;
    let (links, levels) = (link(&mesh)?, vec![level; mesh.corners.len()]);
    let made = triangles_all(&mesh, &links, &levels, None)?;
    let tangents = tangents(&mesh, &links, &levels)?;
    let at = |point: &[i32]| [point[0], point[1], point[2]].map(|ticks| ticks as f32 / 256.0);
    let mut vertices: Vec<Vertex> =
        made.points.chunks(3).map(|point| Vertex { at: at(point), normal: [0.0; 3] }).collect();
    let mut index = made.triangles;
    // twice a triangle's area goes to its vertices
    let mut volume = 0.0;
    for triangle in index.chunks(3) {
        let [p, q, r] = [0, 1, 2].map(|corner| vertices[triangle[corner] as usize].at);
        for x in 0..3 {
            let (y, z) = ((x + 1) % 3, (x + 2) % 3);
            let part = |a: [f32; 3], at: usize| f64::from(a[at] - p[at]);
            let area = part(q, y) * part(r, z) - part(q, z) * part(r, y);
            triangle.iter().for_each(|&v| vertices[v as usize].normal[x] += area as f32);
            volume += f64::from(p[x]) * area / 6.0;
        }
    }
    if volume < 0.0 {
        index.chunks_mut(3).for_each(|triangle| triangle.swap(0, 1));
    }
    // the surface's normal where it has one, on the side of the areas
    for (vertex, pair) in vertices.iter_mut().zip(tangents.chunks(6)) {
        let part = |at: usize| pair[at] as f64;
        let mut exact = [(1, 2), (2, 0), (0, 1)].map(|(y, z)| part(y) * part(3 + z) - part(z) * part(3 + y));
        let areas = vertex.normal.map(f64::from);
        let mut dot = exact.iter().zip(areas).map(|(a, b)| a * b).sum::<f64>();
        if dot == 0.0 {
            (exact, dot) = (areas, 1.0);
        }
        let length = exact.iter().map(|x| x * x).sum::<f64>().sqrt().copysign(dot * volume);
        vertex.normal = exact.map(|x| (x / length) as f32);
    }
    println!("{} vertices, {} triangles, volume {:.0} cubic steps", vertices.len(), index.len() / 3, volume.abs());
    Ok(())
}
