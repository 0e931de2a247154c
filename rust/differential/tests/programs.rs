//! The programs `inspect`, `patches` and `squares`, as `.ci/programs` leaves them in target/bin, against what the independent
//! implementation prints; what they refuse they say in words on standard error too. MAHUNOPI_BIN names another directory
//! that has them. A program whose crate is not in the repository is passed over.

use std::fs::File;
use std::path::{Path, PathBuf};
use std::process::{Command, Stdio};

use differential::program::{beside, run};
use differential::{each_case, lists, version};
use reference::{encode, inspect, patches, squares};
use shapes::{damage, random_tables, Places, Random, Sharpness, Solid, Tables, DAMAGES};

/// The program's executable, where the repository has its crate.
fn program(name: &str) -> Option<PathBuf> {
    let root = Path::new(env!("CARGO_MANIFEST_DIR")).join("../..");
    let directory = std::env::var_os("MAHUNOPI_BIN").map_or_else(|| root.join("target/bin"), PathBuf::from);
    if !root.join("crates").join(name).is_dir() {
        println!("the repository has no crate {name}");
        return None;
    }
    let path = directory.join(name);
    assert!(path.is_file(), "{} is not there: run `rt check {name}`", path.display());
    Some(path)
}

/// What the program prints of a file that stands on a disk.
fn of_file(program: &Path, bytes: &[u8]) -> String {
    let name = format!("mahunopi-{}-{:?}.dms", std::process::id(), std::thread::current().id());
    let path = std::env::temp_dir().join(name);
    std::fs::write(&path, bytes).expect("a file to read from");
    let file = File::open(&path).expect("the file");
    let output = Command::new(program).stdin(Stdio::from(file)).output().expect("a run");
    std::fs::remove_file(&path).expect("the file to remove");
    printed(output.stdout, &String::from_utf8(output.stderr).expect("plain text"))
}

/// What the program prints of a file that reaches it in pieces.
fn of_pieces(program: &Path, bytes: &[u8], piece: usize) -> String {
    let written = run(program, &[], bytes, piece);
    printed(written.output, &written.said)
}

/// The text, beside which the program says a refusal in words and nothing else.
fn printed(output: Vec<u8>, said: &str) -> String {
    let text = String::from_utf8(output).expect("plain text");
    assert_eq!(said, beside(&text));
    text
}

/// Files of all kinds: sound, damaged, cut, longer than they say.
fn random_file(random: &mut Random) -> Vec<u8> {
    let mut tables = random_tables(random);
    if random.once_in(2) {
        damage(&mut tables, *random.pick(&DAMAGES), random);
    }
    let mut bytes = encode(lists(&tables), version(&tables, random));
    match random.below(9) {
        0 => bytes.truncate(random.below(14)),
        1 => bytes.truncate(random.below(bytes.len())),
        2 => bytes.extend([0; 3]),
        3 => bytes[random.below(11)] ^= 1 << random.below(8),
        // the other version, with the length of the first
        4 => bytes[3] = 3 - bytes[3],
        _ => {}
    }
    bytes
}

/// Files at and beyond the limits: the largest mesh, and counts that ask for more bytes than any buffer has.
fn large_files() -> Vec<Vec<u8>> {
    let mut random = Random::new(11);
    let torus = Tables::relabelled(&Solid::torus(32, 64), Places::Extreme, &mut random);
    let sharp = torus.clone().sharpened(Sharpness::Random, &mut random);
    let mut files = vec![encode(lists(&torus), 1), encode(lists(&sharp), 2), Vec::new()];
    for whole in 0..2 {
        let mut longer = files[whole].clone();
        longer.push(0);
        files.push(longer);
    }
    for (version, each) in [(1, 12 + 1 + 2), (2, 12 + 1 + 2 + 2)] {
        for more in [-65_535 * 2, -1, 0, 1, 65_535 * 2, 5_000_000] {
            let mut bytes = b"DMS\x01\x00\xff\xff\xff\xff\xff\xff".to_vec();
            bytes[3] = version;
            bytes.resize((11 + each * 65_535 + more) as usize, 7);
            files.push(bytes);
        }
    }
    files
}

fn compare(name: &str, expected: fn(&[u8]) -> String, cases: u64, seed: u64) {
    let path = match program(name) {
        Some(path) => path,
        None => return,
    };
    for (number, bytes) in large_files().iter().enumerate() {
        assert!(of_file(&path, bytes) == expected(bytes), "{name} prints otherwise of large file {number}");
        assert!(of_pieces(&path, bytes, 4_099) == expected(bytes), "{name} prints otherwise of pieces {number}");
    }
    each_case(cases, seed, |_, random| {
        let bytes = random_file(random);
        let printed = if random.once_in(2) {
            of_file(&path, &bytes)
        } else {
            of_pieces(&path, &bytes, *random.pick(&[1, 7, 11, 512, 65_536]))
        };
        assert!(printed == expected(&bytes), "{name} prints otherwise");
    });
}

#[test]
fn inspect_prints_counts_and_refusals() {
    compare("inspect", inspect, 300, 12);
}

#[test]
fn patches_prints_every_control_point() {
    compare("patches", patches, 100, 13);
}

#[test]
fn squares_prints_what_is_irregular() {
    compare("squares", squares, 300, 14);
    let path = match program("squares") {
        Some(path) => path,
        None => return,
    };
    let line = |solid: &Solid| of_file(&path, &encode(lists(&Tables::of(solid)), 1));
    assert_eq!(line(&Solid::torus(3, 4)), "none read 12\n");
    assert_eq!(line(&Solid::torus(32, 64)), "none read 2048\n");
    assert_eq!(line(&Solid::cube()), "vertex 0 read 6\n");
    assert_eq!(line(&Solid::torus(3, 4).with(Solid::cube())), "vertex 12 read 18\n");
    assert_eq!(line(&Solid::prism(3)), "face 0 read 1\n");
    assert_eq!(line(&Solid::torus(3, 4).with(Solid::prism(5))), "face 12 read 13\n");
    assert_eq!(of_file(&path, b"DMS"), "refused 1 0\n");
}
