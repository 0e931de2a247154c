//! Reading OFF: the proved library and the program `off2dms` against the independent implementation.

use std::io::Write;
use std::path::{Path, PathBuf};
use std::process::{Command, Stdio};

use differential::each_case;
use differential::program::in_words;
use mahunopi::{raw, MAX_CORNERS, MAX_FACES, MAX_VERTICES};
use reference::{OffLists, Refusal};
use shapes::{damage, random_tables, Random, Solid, Tables, DAMAGES};

/// What `place` and the lengths hold before a call.
const UNTOUCHED: u64 = 0xfeed_0000_0000_beef;
/// The least lengths of the lent lists.
const SPACES: [usize; 4] = [3 * MAX_VERTICES, MAX_FACES, MAX_CORNERS, 2 * MAX_CORNERS];

/// The library and the reference on the same text and the same lent lists: the same answer, place, lengths and contents.
fn read(text: &[u8], spaces: [usize; 4], random: &mut Random) -> Result<OffLists, Refusal> {
    let old = OffLists {
        coordinates: (0..spaces[0]).map(|_| random.bits() as i32).collect(),
        sides: (0..spaces[1]).map(|_| random.bits() as u8).collect(),
        corners: (0..spaces[2]).map(|_| random.bits() as u16).collect(),
        sharpness: (0..spaces[3]).map(|_| random.bits() as u8).collect(),
    };
    let mut lent = old.clone();
    let mut place = UNTOUCHED;
    let mut lengths = [UNTOUCHED; 4];
    let [coordinate_count, side_count, corner_count, sharpness_count] = &mut lengths;
    // SAFETY: each pointer goes with the length of its own list
    let number = unsafe {
        raw::mahunopi_off(
            text.as_ptr(),
            text.len(),
            lent.coordinates.as_mut_ptr(),
            lent.coordinates.len(),
            lent.sides.as_mut_ptr(),
            lent.sides.len(),
            lent.corners.as_mut_ptr(),
            lent.corners.len(),
            lent.sharpness.as_mut_ptr(),
            lent.sharpness.len(),
            coordinate_count,
            side_count,
            corner_count,
            sharpness_count,
            &mut place,
        )
    };
    let said = String::from_utf8_lossy(&text[..text.len().min(400)]).into_owned();
    let expected = reference::off(text, spaces);
    let mut after = old;
    match &expected {
        Ok(read) => {
            assert_eq!((number, place), (0, UNTOUCHED), "{said:?}");
            let counts = [read.coordinates.len(), read.sides.len(), read.corners.len(), read.sharpness.len()];
            assert_eq!(lengths, counts.map(|count| count as u64), "{said:?}");
            after.coordinates[..counts[0]].copy_from_slice(&read.coordinates);
            after.sides[..counts[1]].copy_from_slice(&read.sides);
            after.corners[..counts[2]].copy_from_slice(&read.corners);
            after.sharpness[..counts[3]].copy_from_slice(&read.sharpness);
            assert!(counts[3] == 2 * counts[2] && read.sharpness.iter().all(|&sixteenths| sixteenths == 8));
        }
        Err(refusal) => {
            assert_eq!(Refusal { number, place }, *refusal, "{said:?}");
            assert_eq!(lengths, [UNTOUCHED; 4], "{said:?}");
        }
    }
    assert!(lent == after, "the lent lists hold otherwise after {said:?}");
    expected
}

/// The needed words of a mesh, the first word too.
fn words_of(tables: &Tables) -> Vec<String> {
    let mut words = vec!["OFF".to_string(), (tables.coordinates.len() / 3).to_string(), tables.sides.len().to_string()];
    words.push((tables.corners.len() / 2).to_string());
    words.extend(tables.coordinates.iter().map(i32::to_string));
    let mut corners = tables.corners.iter();
    for &sides in &tables.sides {
        words.push(sides.to_string());
        words.extend(corners.by_ref().take(usize::from(sides)).map(u16::to_string));
    }
    words
}

/// A comment that holds what would be words and comments elsewhere.
fn comment(random: &mut Random) -> &'static str {
    *random.pick(&["#\n", "# 1 2 3\n", "#OFF#9\r\t \n", "##\n", "#\u{0}\u{b}\u{ff}-7\n"])
}

/// The words with separators and comments of all kinds between them, before and after.
fn text_of(words: &[String], random: &mut Random) -> Vec<u8> {
    let mut text = Vec::new();
    let part = |text: &mut Vec<u8>, least: usize, random: &mut Random| {
        for _ in 0..least + random.below(3) {
            text.extend(random.pick(&[" ", "\t", "\r", "\n", "\r\n", "  "]).bytes());
        }
        if random.once_in(10) {
            text.extend(comment(random).bytes());
        }
    };
    part(&mut text, 0, random);
    for word in words {
        text.extend(word.bytes());
        // a comment alone parts words too, as it ends with a line feed
        if random.once_in(12) {
            text.extend(comment(random).bytes());
        } else {
            part(&mut text, 1, random);
        }
    }
    if random.once_in(3) {
        // a comment at the end needs no line feed
        text.extend(b"# the end 5");
    }
    text
}

#[test]
fn random_meshes_in_every_layout() {
    let mut read_well = 0;
    each_case(1_200, 61, |_, random| {
        let mut tables = random_tables(random);
        let damaged = random.once_in(3);
        if damaged {
            damage(&mut tables, *random.pick(&DAMAGES), random);
        }
        let mut words = words_of(&tables);
        // numbers written otherwise: leading zeros, a minus before zero
        for word in words.iter_mut().skip(1) {
            match random.below(20) {
                0 if word == "0" => *word = "-0".to_string(),
                1 if !word.starts_with('-') && word.len() < 9 => *word = format!("0{word}"),
                2 if !word.starts_with('-') => *word = format!("{word:0>9}"),
                _ => {}
            }
        }
        let text = text_of(&words, random);
        let spaces = SPACES.map(|space| space + random.below(3));
        let lists = read(&text, spaces, random);
        if !damaged {
            let lists = lists.expect("a sound mesh");
            read_well += 1;
            assert_eq!(
                (&lists.coordinates, &lists.sides, &lists.corners),
                (&tables.coordinates, &tables.sides, &tables.corners)
            );
        }
    });
    println!("read {read_well}");
    assert!(std::env::var_os("MAHUNOPI_CASE").is_some() || read_well > 100);
}

#[test]
fn words_damaged_in_every_way() {
    let mut counts = [0; 4];
    each_case(3_000, 62, |_, random| {
        let mut words = words_of(&Tables::of(&match random.below(3) {
            0 => Solid::tetrahedron(),
            1 => Solid::cube(),
            _ => Solid::prism(3 + random.below(6)),
        }));
        for _ in 0..1 + random.below(2) {
            let at = random.below(words.len());
            let bad = "1234567890 0000000001 -1234567890 +5 1.0 1e3 - --1 1- x 0x1 65535 65536 255 256 999999999 -999999999 -1 \
                       -0 \u{0} 1\u{0} \u{b}1 \u{e9} \u{663} OFF off 9: /";
            let bad: Vec<&str> = bad.split(' ').collect();
            match random.below(5) {
                0 => {
                    words.remove(at);
                }
                1 => words.insert(at, random.below(9).to_string()),
                2 => words.push((*random.pick(&["0", "x", "OFF"])).to_string()),
                _ => words[at] = (*random.pick(&bad)).to_string(),
            }
            if words.is_empty() {
                break;
            }
        }
        let spaces = if random.once_in(10) {
            let mut spaces = SPACES;
            spaces[random.below(4)] -= 1;
            spaces
        } else {
            SPACES
        };
        let text = text_of(&words, random);
        match read(&text, spaces, random) {
            Ok(_) => counts[0] += 1,
            Err(refusal) if refusal.number < 24 => counts[0] += 1,
            Err(refusal) => counts[refusal.number as usize - 23] += 1,
        }
    });
    println!("read or refused by 4 to 13: {}, by 24, 25, 26: {:?}", counts[0], &counts[1..]);
    assert!(std::env::var_os("MAHUNOPI_CASE").is_some() || counts.iter().all(|&count| count > 0));
}

const TETRAHEDRON: &str = "OFF 4 4 6 0 0 0 1 0 0 0 1 0 0 0 1 3 0 2 1 3 0 1 3 3 1 2 3 3 0 3 2";

#[test]
fn every_refusal_at_its_lowest_place() {
    let mut random = Random::new(63);
    let mut expect = |text: &[u8], number: u32, place: u64| {
        assert_eq!(
            read(text, SPACES, &mut random),
            Err(Refusal { number, place }),
            "{:?}",
            String::from_utf8_lossy(text)
        );
    };
    // 24: the first word is missing or not OFF
    for text in
        ["", "#", "# OFF\n", "\n\t \r", "off 4", "OFFX", "OF", "OF#F\n", "OFF\u{b}", "1 OFF", "\u{feff}OFF", "COFF"]
    {
        expect(text.as_bytes(), 24, 0);
    }
    // 25: each count, a coordinate, a side count, a vertex number; missing, no number, negative, too large
    for (text, place) in [
        ("OFF", 1),
        ("OFF 4 4", 3),
        ("OFF 4 4 #6", 3),
        ("OFF x", 1),
        ("OFF 4 4.0", 2),
        ("OFF -1 0 0", 1),
        ("OFF 65536 0 0", 1),
        ("OFF 0 65536 0", 2),
        ("OFF 0 0 65536", 3),
        ("OFF 0 0 -1", 3),
        ("OFF 0 0 1e3", 3),
        ("OFF 1 0 0", 4),
        ("OFF 1 0 0 1 2", 6),
        ("OFF 1 0 0 1 +2 x", 5),
        ("OFF 1 0 0 1 2 1234567890", 6),
        ("OFF 0 1 0", 4),
        ("OFF 0 1 0 256", 4),
        ("OFF 0 1 0 -1", 4),
        ("OFF 0 1 0 255", 5),
        ("OFF 0 1 0 3 0 1", 7),
        ("OFF 0 1 0 3 0 -1 x", 6),
        ("OFF 0 1 0 3 0 1 65536", 7),
        ("OFF 0 2 0 0 1 +1", 6),
        ("OFF#x\n1#y\n0#z\n0 1 -#2\n 3", 5),
    ] {
        expect(text.as_bytes(), 25, place);
    }
    // 26: the first word after the last face, whatever it is
    for (text, place) in
        [("OFF 0 0 0 x y", 4), ("OFF 0 1 0 2 5 6 7", 7), ("OFF 1 0 0 1 2 3 4", 7), ("OFF 0 0 0#1\n-", 4)]
    {
        expect(text.as_bytes(), 26, place);
    }
    expect(format!("{TETRAHEDRON} 255 0 0").as_bytes(), 26, 32);
    // bytes above 127 and NUL belong to words
    expect(b"OFF 0 0 0\xff", 25, 3);
    expect(b"OFF 0 0\x000 0", 25, 2);
    expect(b"OFF 0 0 0 \xc2\xa0", 26, 4);
    // then 4 to 13
    for (text, number, place) in [
        ("OFF 0 0 0", 4, 0),
        ("OFF 1 1 0 0 0 0 0", 4, 0),
        ("OFF 1 2 0 0 0 0 2 0 0 3 0 0 0", 5, 0),
        ("OFF 1 1 0 0 0 65537 3 0 0 0", 7, 2),
        ("OFF 1 1 0 0 -999999999 0 3 0 0 0", 7, 1),
        ("OFF 3 1 0 0 0 0 0 0 0 0 0 0 3 0 1 3", 8, 2),
        ("OFF 3 1 0 0 0 0 0 0 0 0 0 0 3 0 1 0", 9, 2),
        ("OFF 3 1 0 0 0 0 0 0 0 0 0 0 3 0 1 2", 11, 0),
    ] {
        expect(text.as_bytes(), number, place);
    }
}

#[test]
fn lent_lists_one_entry_short() {
    let mut random = Random::new(64);
    assert!(read(TETRAHEDRON.as_bytes(), SPACES, &mut random).is_ok());
    for short in 0..4 {
        let mut spaces = SPACES;
        spaces[short] -= 1;
        // before everything else
        for text in [TETRAHEDRON, "", "OFF 1"] {
            assert_eq!(read(text.as_bytes(), spaces, &mut random), Err(Refusal { number: 24, place: 0 }));
        }
    }
    assert_eq!(read(TETRAHEDRON.as_bytes(), [0; 4], &mut random), Err(Refusal { number: 24, place: 0 }));
}

#[test]
fn announced_beyond_all_lists() {
    let mut random = Random::new(65);
    // all 65,535 vertices, and faces with more corners than any list: 4; with one word missing 25, with one too many 26
    let vertices = format!("OFF 65535 0 0 {}", "1 -2 3 ".repeat(65_535));
    assert_eq!(read(vertices.as_bytes(), SPACES, &mut random), Err(Refusal { number: 4, place: 0 }));
    let missing = &vertices[..vertices.len() - 3];
    assert_eq!(read(missing.as_bytes(), SPACES, &mut random), Err(Refusal { number: 25, place: 4 + 3 * 65_535 - 1 }));
    let longer = vertices.clone() + "0";
    assert_eq!(read(longer.as_bytes(), SPACES, &mut random), Err(Refusal { number: 26, place: 4 + 3 * 65_535 }));
    let face = format!("255{}\n", " 65535".repeat(255));
    let faces = format!("OFF 0 65535 0\n{}", face.repeat(65_535));
    let count = 4 + 256 * 65_535;
    assert_eq!(read(faces.as_bytes(), SPACES, &mut random), Err(Refusal { number: 4, place: 0 }));
    let longer = faces.clone() + "# a comment\nx";
    assert_eq!(read(longer.as_bytes(), SPACES, &mut random), Err(Refusal { number: 26, place: count }));
    let missing = &faces[..faces.len() - 6];
    assert_eq!(read(missing.as_bytes(), SPACES, &mut random), Err(Refusal { number: 25, place: count - 1 }));
    // the largest mesh of tori, and one vertex more than the most
    let torus = Tables::of(&Solid::torus(32, 64));
    assert!(read(&text_of(&words_of(&torus), &mut random), SPACES, &mut random).is_ok());
    let mut words = words_of(&torus);
    words[1] = "2049".to_string();
    words.splice(4..4, ["0", "0", "0"].map(String::from));
    assert_eq!(read(&text_of(&words, &mut random), SPACES, &mut random), Err(Refusal { number: 4, place: 0 }));
    // a word of a megabyte, a comment of a megabyte
    assert_eq!(
        read(&[&b"OFF "[..], &[b'7'; 1 << 20]].concat(), SPACES, &mut random),
        Err(Refusal { number: 25, place: 1 })
    );
    assert_eq!(
        read(&[&b"OFF #"[..], &[b'7'; 1 << 20]].concat(), SPACES, &mut random),
        Err(Refusal { number: 25, place: 1 })
    );
}

#[test]
fn arbitrary_bytes() {
    each_case(4_000, 66, |_, random| {
        let mut text = if random.once_in(2) { b"OFF ".to_vec() } else { Vec::new() };
        let near = random.once_in(2);
        for _ in 0..random.below(60) {
            text.push(if near { *random.pick(b"0123456789-# \t\r\nO.") } else { random.bits() as u8 });
        }
        let _ = read(&text, SPACES, random);
    });
}

/// The program, where the repository has its crate.
fn program(name: &str) -> Option<PathBuf> {
    let root = Path::new(env!("CARGO_MANIFEST_DIR")).join("../..");
    let directory = std::env::var_os("MAHUNOPI_BIN").map_or_else(|| root.join("target/bin"), PathBuf::from);
    if !root.join("crates").join(name).is_dir() {
        println!("the repository has no crate {name}");
        return None;
    }
    let path = directory.join(name);
    assert!(path.is_file(), "{} is not there: run `rt check {name}`", path.display());
    Some(path)
}

/// What the program writes to standard output and to standard error.
fn written(program: &Path, text: &[u8]) -> (Vec<u8>, String) {
    let mut child = Command::new(program)
        .stdin(Stdio::piped())
        .stdout(Stdio::piped())
        .stderr(Stdio::piped())
        .spawn()
        .expect("a run of the program");
    let mut input = child.stdin.take().expect("its input");
    let text = text.to_vec();
    // a program that has seen enough may close its input
    let writer = std::thread::spawn(move || drop(input.write_all(&text)));
    let output = child.wait_with_output().expect("its output");
    writer.join().expect("the writer");
    (output.stdout, String::from_utf8(output.stderr).expect("plain text"))
}

#[test]
fn off2dms_writes_files_and_refusals() {
    let path = match program("off2dms") {
        Some(path) => path,
        None => return,
    };
    let compare = |text: &[u8]| {
        let (file, said) = written(&path, text);
        match reference::off2dms(text) {
            Ok(expected) => assert!(file == expected && said.is_empty(), "another file, or {said:?}"),
            Err(line) => {
                let line = in_words(&line);
                assert!(file.is_empty() && said == line, "{said:?} and {} bytes, not {line:?}", file.len());
            }
        }
    };
    for text in ["", "OFF", "OFF 0 0 0", "OFF 0 0 0 1", "off", TETRAHEDRON, &format!("{TETRAHEDRON} # 5")] {
        compare(text.as_bytes());
    }
    // at and beyond the longest text
    for length in [(1 << 20) - 1, 1 << 20, (1 << 20) + 1, (1 << 20) + 70_000] {
        let mut text = TETRAHEDRON.as_bytes().to_vec();
        text.resize(length, b' ');
        compare(&text);
    }
    each_case(150, 67, |_, random| {
        let mut tables = random_tables(random);
        if random.once_in(3) {
            damage(&mut tables, *random.pick(&DAMAGES), random);
        }
        let mut words = words_of(&tables);
        if random.once_in(3) {
            let at = random.below(words.len());
            words[at] = (*random.pick(&["x", "-1", "65536", "7"])).to_string();
        }
        compare(&text_of(&words, random));
    });
}

/// The sample texts give the files of the same names, also through `off2dms | inspect`.
#[test]
fn sample_texts_are_the_sample_files() {
    let meshes = Path::new(env!("CARGO_MANIFEST_DIR")).join("../../meshes");
    let mut samples = 0;
    for entry in std::fs::read_dir(&meshes).expect("the samples") {
        let text = entry.expect("a sample").path();
        // drawn-wrong.off has no file: it is no mesh before its faces are turned (turn_program.rs)
        if text.extension().map_or(true, |extension| extension != "off") || text.ends_with("drawn-wrong.off") {
            continue;
        }
        samples += 1;
        let file = std::fs::read(text.with_extension("dms")).expect("its file");
        let text = std::fs::read(&text).expect("its text");
        assert_eq!(reference::off2dms(&text), Ok(file.clone()));
        let mesh = mahunopi::off(&text).expect("a mesh");
        assert_eq!(mesh, mahunopi::decode(&file).expect("a mesh"));
        if let (Some(off2dms), Some(inspect)) = (program("off2dms"), program("inspect")) {
            let (piped, _) = written(&off2dms, &text);
            let (printed, _) = written(&inspect, &piped);
            assert_eq!(String::from_utf8(printed).expect("plain text"), reference::inspect(&file));
        }
    }
    assert!(samples >= 3, "{samples} samples");
}
