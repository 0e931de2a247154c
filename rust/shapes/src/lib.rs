//! Closed meshes for tests and benchmarks: solids and tori, operators and random changes on them, ways to relabel and
//! to damage their lists. Everything comes from a seed, so that a failing case can be made again.

mod damage;
mod one_sided;
mod random;
mod solid;
mod tables;
mod turning;

pub use damage::{damage, pinch, DAMAGES};
pub use random::Random;
pub use solid::Solid;
pub use tables::{random_tables, Places, Sharpness, Tables};
pub use turning::{jumble, random_faces, DAMAGES_OF_EDGES};

/// The limits of 01 and L8.
const MAX_VERTICES: usize = 2_048;
const MAX_FACES: usize = 4_096;
const MAX_CORNERS: usize = 8_192;
const MOST: usize = 16;
const LARGEST_COORDINATE: i32 = 65_536;
const SHARPEST: u8 = 16;
const PLAIN: u8 = 8;
