//! Coordinates rearranged for the archive and back: the proved library and the programs `archive` and `restore` against
//! the independent implementation; and what the rearranging is for.

use std::fs::File;
use std::io::Write;
use std::path::{Path, PathBuf};
use std::process::{Command, Stdio};

use differential::program::in_words;
use differential::{each_case, same};
use mahunopi::raw;
use reference::{Refusal, MOST_BYTES};
use shapes::{Random, Solid, Tables};

/// What `place` holds before a call.
const UNTOUCHED: u64 = 0xfeed_0000_0000_beef;

/// Numbers about which differences and sums wrap.
const EXTREMES: [i32; 12] =
    [i32::MIN, i32::MIN + 1, -65_537, -256, -1, 0, 1, 255, 65_536, 0x1234_5678, i32::MAX - 1, i32::MAX];

/// The library's answer has to be the reference's, and `place` is written beside a refusal only.
fn same_answer(number: u32, place: u64, expected: Result<(), Refusal>) {
    let answer = if number == 0 { Ok(()) } else { Err(Refusal { number, place }) };
    assert_eq!(answer, expected, "another answer");
    assert!(number != 0 || place == UNTOUCHED, "done, and the place changes");
}

/// Archiving into `room` lent bytes of any contents: the same answer, the same bytes, done or refused.
fn archive(numbers: &[i32], room: usize, random: &mut Random) -> Result<Vec<u8>, Refusal> {
    let mut bytes: Vec<u8> = (0..room).map(|_| random.bits() as u8).collect();
    let mut expected = bytes.clone();
    let mut place = UNTOUCHED;
    // SAFETY: each pointer goes with the length of its own list
    let number =
        unsafe { raw::mahunopi_archive(numbers.as_ptr(), numbers.len(), bytes.as_mut_ptr(), room, &mut place) };
    let result = reference::archive(numbers, &mut expected);
    same_answer(number, place, result);
    same("bytes", &bytes, &expected);
    result.map(|()| bytes)
}

/// Restoring into `room` lent numbers.
fn restore(bytes: &[u8], room: usize, random: &mut Random) -> Result<Vec<i32>, Refusal> {
    let mut numbers: Vec<i32> = (0..room).map(|_| random.bits() as i32).collect();
    let mut expected = numbers.clone();
    let mut place = UNTOUCHED;
    // SAFETY: each pointer goes with the length of its own list
    let number = unsafe { raw::mahunopi_restore(bytes.as_ptr(), bytes.len(), numbers.as_mut_ptr(), room, &mut place) };
    let result = reference::restore(bytes, &mut expected);
    same_answer(number, place, result);
    same("numbers", &numbers, &expected);
    result.map(|()| numbers)
}

/// Both ways: a list comes back, and so do bytes.
fn there_and_back(numbers: &[i32], random: &mut Random) {
    let bytes = archive(numbers, 4 * numbers.len(), random).expect("a multiple of three");
    assert!(restore(&bytes, numbers.len(), random).as_deref() == Ok(numbers), "the numbers do not come back");
    let any: Vec<u8> = bytes.iter().map(|&byte| byte ^ random.bits() as u8).collect();
    let made = restore(&any, numbers.len(), random).expect("the same lengths");
    assert!(archive(&made, any.len(), random) == Ok(any), "the bytes do not come back");
}

#[test]
fn every_short_length_of_both_lists() {
    let mut random = Random::new(111);
    let mut counts = [0; 3];
    for count in 0..=13usize {
        let numbers: Vec<i32> = (0..count).map(|_| *random.pick(&EXTREMES)).collect();
        for room in 0..=60 {
            let bytes: Vec<u8> = (0..room).map(|_| random.bits() as u8).collect();
            let expected = match (count % 3, room == 4 * count) {
                (1 | 2, _) => Some(Refusal { number: 30, place: count as u64 }),
                (_, false) => Some(Refusal { number: 31, place: room as u64 }),
                _ => None,
            };
            assert_eq!(archive(&numbers, room, &mut random).err(), expected);
            assert_eq!(restore(&bytes, count, &mut random).err(), expected);
            counts[expected.map_or(0, |refusal| refusal.number as usize - 29)] += 1;
        }
    }
    // 0, 3, 6, 9 and 12 numbers pass 30, each with one length of bytes
    assert_eq!(counts, [5, 9 * 61, 5 * 61 - 5]);
}

/// Two vertices of every pair of extreme numbers, on every axis: differences and sums wrap both ways.
#[test]
fn extreme_numbers_wrap_both_ways() {
    let mut random = Random::new(112);
    let mut wrapped = [0; 2];
    for &a in &EXTREMES {
        for &b in &EXTREMES {
            for axis in 0..3 {
                let mut numbers = [0; 6].map(|_: i32| random.bits() as i32);
                numbers[axis] = a;
                numbers[3 + axis] = b;
                let bytes = archive(&numbers, 24, &mut random).unwrap();
                let difference = i64::from(b) - i64::from(a);
                for plane in 0..4 {
                    assert_eq!(bytes[6 * plane + 3 + axis], (difference >> (8 * plane)) as u8, "{a} {b} {axis}");
                    assert_eq!(bytes[6 * plane + axis], (a >> (8 * plane)) as u8, "{a} {axis}");
                }
                wrapped[0] += usize::from(difference > i64::from(i32::MAX));
                wrapped[1] += usize::from(difference < i64::from(i32::MIN));
                there_and_back(&numbers, &mut random);
            }
        }
    }
    assert!(wrapped.iter().all(|&count| count > 0));
}

#[test]
fn random_lists() {
    each_case(2_000, 113, |_, random| {
        let vertices = *random.pick(&[1, 2, 3, 5, 16, 17, 64, 100, 700]);
        let kind = random.below(3);
        let mut numbers = vec![0i32; 3 * vertices];
        for i in 0..numbers.len() {
            numbers[i] = match kind {
                // slowly varying, all of 32 bits, extreme
                0 if i >= 3 => numbers[i - 3].wrapping_add(random.between(-300, 300)),
                1 => *random.pick(&EXTREMES),
                _ => random.bits() as i32,
            };
        }
        there_and_back(&numbers, random);
        let more = random.below(9);
        let _ = archive(&numbers, 4 * numbers.len() + 1 + more, random);
        let _ = restore(&vec![7; 4 * numbers.len() + 1 + more], numbers.len(), random);
    });
}

/// Far longer than the list of any mesh, with all positions of the numbers in the machine's registers.
#[test]
fn long_lists() {
    let mut random = Random::new(114);
    for vertices in [2_048, 65_537, 1_000_003] {
        let numbers: Vec<i32> = (0..3 * vertices).map(|_| random.bits() as i32).collect();
        there_and_back(&numbers, &mut random);
    }
}

// ---- the programs

/// The program, where the repository has its crate.
fn program(name: &str) -> Option<PathBuf> {
    let root = Path::new(env!("CARGO_MANIFEST_DIR")).join("../..");
    let directory = std::env::var_os("MAHUNOPI_BIN").map_or_else(|| root.join("target/bin"), PathBuf::from);
    if !root.join("crates").join(name).is_dir() {
        println!("the repository has no crate {name}");
        return None;
    }
    let path = directory.join(name);
    assert!(path.is_file(), "{} is not there: run `rt check {name}`", path.display());
    Some(path)
}

/// What a program writes to standard output and to standard error of an input that reaches it in pieces.
fn run(program: impl AsRef<std::ffi::OsStr>, arguments: &[&str], input: &[u8], piece: usize) -> (Vec<u8>, String) {
    let mut command = Command::new(program);
    command.args(arguments).stdin(Stdio::piped()).stdout(Stdio::piped()).stderr(Stdio::piped());
    let mut child = command.spawn().expect("a run of the program");
    let mut pipe = child.stdin.take().expect("its input");
    let pieces: Vec<Vec<u8>> = input.chunks(piece).map(<[u8]>::to_vec).collect();
    let writer = std::thread::spawn(move || {
        // a program that has seen enough may close its input
        for piece in pieces {
            if pipe.write_all(&piece).is_err() {
                break;
            }
        }
    });
    let output = child.wait_with_output().expect("its output");
    writer.join().expect("the writer");
    (output.stdout, String::from_utf8(output.stderr).expect("plain text"))
}

fn compare(name: &str, expected: fn(&[u8]) -> Result<Vec<u8>, String>) {
    let path = match program(name) {
        Some(path) => path,
        None => return,
    };
    let check = |input: &[u8], piece: usize| {
        let (written, said) = run(&path, &[], input, piece);
        match expected(input) {
            Ok(bytes) => assert!(written == bytes && said.is_empty(), "{name} writes otherwise: {said}"),
            Err(line) => {
                assert_eq!((written.as_slice(), said), (&[][..], in_words(&line)), "{name} of {} bytes", input.len())
            }
        }
    };
    let mut random = Random::new(115);
    let mut any = |length: usize| -> Vec<u8> { (0..length).map(|_| random.bits() as u8).collect() };
    // every rest modulo 12, then the longest list and one byte more
    for length in 0..=60 {
        check(&any(length), 7);
    }
    for length in [61_452, 1_000_000, MOST_BYTES - 12, MOST_BYTES, MOST_BYTES + 1, MOST_BYTES + 12, 3 * MOST_BYTES] {
        check(&any(length), 65_536);
    }
    check(&any(120_000), 4_099);
    // from a file, and with an argument
    let file = std::env::temp_dir().join(format!("mahunopi-{name}-{}", std::process::id()));
    let input = any(24_576);
    std::fs::write(&file, &input).expect("a file to read from");
    let output = Command::new(&path).stdin(File::open(&file).expect("the file")).output().expect("a run");
    std::fs::remove_file(&file).expect("the file to remove");
    assert_eq!(Ok(output.stdout), expected(&input));
    assert_eq!(run(&path, &["x"], &input, 512), (Vec::new(), format!("usage: {name} < FILE > FILE\n")));
}

#[test]
fn archive_writes_planes_and_refusals() {
    compare("archive", reference::archive_stream);
}

#[test]
fn restore_writes_numbers_and_refusals() {
    compare("restore", reference::restore_stream);
}

#[test]
fn the_programs_undo_each_other() {
    let (archive, restore) = match (program("archive"), program("restore")) {
        (Some(archive), Some(restore)) => (archive, restore),
        _ => return,
    };
    let bytes: Vec<u8> = sample("torus").iter().flat_map(|number| number.to_le_bytes()).collect();
    let (archived, _) = run(&archive, &[], &bytes, 512);
    assert!(archived.len() == bytes.len() && archived != bytes);
    assert!(run(&restore, &[], &archived, 512).0 == bytes);
    assert!(run(&archive, &[], &run(&restore, &[], &bytes, 512).0, 512).0 == bytes);
}

// ---- what it is for

/// The coordinates of a sample mesh.
fn sample(name: &str) -> Vec<i32> {
    let file = Path::new(env!("CARGO_MANIFEST_DIR")).join("../../meshes").join(name).with_extension("dms");
    mahunopi::decode(&std::fs::read(file).expect("a sample mesh")).expect("a sound mesh").coordinates
}

/// A sphere of p rows of q points, row by row.
fn sphere(p: usize, q: usize, radius: f64) -> Vec<i32> {
    use std::f64::consts::PI;
    let point = |k: usize| {
        let (row, turn) = (PI * ((k / q) as f64 + 0.5) / p as f64, 2.0 * PI * (k % q) as f64 / q as f64);
        [row.sin() * turn.cos(), row.sin() * turn.sin(), row.cos()].map(|c| (radius * c).round() as i32)
    };
    (0..p * q).flat_map(point).collect()
}

/// The length of what gzip makes of the bytes.
fn gzip(bytes: &[u8]) -> usize {
    run("gzip", &["-9", "-n", "-c"], bytes, 65_536).0.len()
}

/// The archived bytes of sample meshes and of large ones compress better than the plain ones. Lists of a few vertices,
/// which are shorter than what gzip writes of a list of 24, are only printed.
#[test]
fn archived_bytes_compress_better() {
    let drawn = |solid: Solid| Tables::of(&solid).coordinates;
    let lists = [
        ("tetrahedron", sample("tetrahedron"), false),
        ("octahedron", sample("octahedron"), false),
        ("cube", sample("cube"), false),
        ("prism", sample("prism"), true),
        ("torus", sample("torus"), true),
        ("torus of 32 times 64", drawn(Solid::torus(32, 64)), true),
        ("sphere of 32 times 64", sphere(32, 64, 60_000.0), true),
        ("sphere of 256 times 512", sphere(256, 512, 60_000.0), true),
    ];
    for (name, numbers, better) in lists {
        let plain: Vec<u8> = numbers.iter().flat_map(|number| number.to_le_bytes()).collect();
        let archived = mahunopi::archive(&numbers).expect("a coordinate list");
        let (before, after) = (gzip(&plain), gzip(&archived));
        println!("| {name} | {} | {} | {before} | {after} |", numbers.len() / 3, plain.len());
        assert!(before > 0 && after > 0, "gzip writes nothing");
        assert!(!better || after < before, "{name}: {before} bytes plain, {after} archived");
    }
}
