//! Says what .dms files hold, or why they are refused.
//!
//!     cargo run --release --offline --example inspect -- ../meshes/*.dms

use std::{env, error::Error, fs};

use mahunopi::{decode, irregular, survey};

fn main() -> Result<(), Box<dyn Error>> {
    for name in env::args().skip(1) {
        let bytes = fs::read(&name)?;
        match survey(&bytes) {
            Ok(counts) => print!("{name}: {}\n{counts}", irregular(&decode(&bytes)?)?),
            Err(refusal) => println!("{name}: {refusal}"),
        }
    }
    Ok(())
}
