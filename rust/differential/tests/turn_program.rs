//! The program `turn` against the independent implementation: a .dms file on standard input, the turned file on standard
//! output, the turned faces on standard error, one number a line; of a refused file the refusal in words on standard error
//! and nothing on standard output. And `off2dms as-drawn` before it, for bought OFF models.

use std::path::Path;

use differential::program::{find, in_words, run, Written};
use differential::{each_case, lists, version};
use reference::{encode, inspect, off2dms, off2dms_as_drawn, turn_file};
use shapes::{
    damage, jumble, random_faces, random_tables, Random, Sharpness, Solid, Tables, DAMAGES, DAMAGES_OF_EDGES,
};

/// What the program has to write.
fn expected(bytes: &[u8]) -> (Vec<u8>, String) {
    match turn_file(bytes) {
        Ok((file, faces)) => (file, faces.iter().map(|face| format!("{face}\n")).collect()),
        Err(refusal) => (vec![], in_words(&format!("refused {} {}\n", refusal.number, refusal.place))),
    }
}

fn compare(bytes: &[u8], piece: usize) -> Written {
    let written = run(&find("turn"), &[], bytes, piece);
    let (file, said) = expected(bytes);
    assert_eq!(written.said, said, "other words on standard error");
    assert!(written.output == file, "another file");
    written
}

/// Models of all kinds: sound, turned, one-sided, damaged, cut, longer than they say.
fn random_file(random: &mut Random) -> Vec<u8> {
    let mut tables = match random.below(4) {
        0 => {
            let surfaces = [Solid::klein_bottle(3, 3 + random.below(9)), Solid::prism(3 + random.below(14))];
            jumble(&surfaces[random.below(2)..], Sharpness::Random, random).0
        }
        _ => random_tables(random),
    };
    for face in random_faces(tables.sides.len(), random) {
        tables.turn_face(face);
    }
    match random.below(4) {
        0 => damage(&mut tables, *random.pick(&DAMAGES), random),
        1 => {
            let way = random.below(DAMAGES_OF_EDGES);
            tables.damage_edges(way, random);
        }
        _ => {}
    }
    let mut bytes = encode(lists(&tables), version(&tables, random));
    match random.below(12) {
        0 => bytes.truncate(random.below(14)),
        1 => bytes.truncate(random.below(bytes.len())),
        2 => bytes.extend([0; 3]),
        3 => bytes[random.below(11)] ^= 1 << random.below(8),
        4 => bytes[3] = 3 - bytes[3],
        _ => {}
    }
    bytes
}

#[test]
fn files_of_all_kinds() {
    let mut turned = 0;
    each_case(300, 144, |_, random| {
        let bytes = random_file(random);
        let piece = *random.pick(&[1, 7, 11, 512, 65_536]);
        let written = compare(&bytes, piece);
        turned += usize::from(!written.output.is_empty() && !written.said.is_empty());
    });
    assert!(std::env::var_os("MAHUNOPI_CASE").is_some() || turned > 0);
}

/// What the program writes is read again: nothing is left to turn, and `inspect` takes a turned mesh.
#[test]
fn a_pipeline() {
    let mut random = Random::new(145);
    for solid in [Solid::cube(), Solid::prism(16), Solid::torus(8, 12), Solid::torus(32, 64)] {
        let sound = Tables::of(&solid).sharpened(Sharpness::Random, &mut random);
        let mut model = sound.clone();
        let wrong: Vec<usize> = (1..model.sides.len()).filter(|_| random.once_in(3)).collect();
        wrong.iter().for_each(|&face| model.turn_face(face));
        let written = compare(&encode(lists(&model), 2), 4_099);
        assert!(written.output == encode(lists(&sound), 2));
        assert_eq!(written.said.lines().count(), wrong.len());
        assert!(inspect(&written.output).starts_with("mesh "));
        assert_eq!(compare(&written.output, 4_099).said, "");
    }
}

/// Files beyond the limits, and of the largest models.
#[test]
fn large_files() {
    let bottle = Tables::of(&Solid::klein_bottle(32, 64));
    for number in [1, 2] {
        compare(&encode(lists(&bottle), number), 4_099);
    }
    compare(b"", 1);
    for (version, each) in [(1, 12 + 1 + 2), (2, 12 + 1 + 2 + 2)] {
        for more in [-1, 0, 1, 5_000_000] {
            let mut bytes = b"DMS\x01\x00\xff\xff\xff\xff\xff\xff".to_vec();
            bytes[3] = version;
            bytes.resize((11 + each * 65_535 + more) as usize, 7);
            compare(&bytes, 65_536);
        }
    }
}

/// The words of a model as a text, those of a face in a line.
fn text_of(model: &Tables) -> Vec<u8> {
    let mut text = format!("OFF\n{} {} 0 # edges\n", model.vertices(), model.sides.len());
    for vertex in model.coordinates.chunks(3) {
        text += &vertex.iter().map(|number| format!("{number} ")).collect::<String>();
        text.push('\n');
    }
    let mut corners = model.corners.iter();
    for &sides in &model.sides {
        text += &sides.to_string();
        corners.by_ref().take(sides.into()).for_each(|corner| text += &format!(" {corner}"));
        text.push('\n');
    }
    text.into_bytes()
}

/// What `off2dms as-drawn` writes, and then what `turn` makes of it, where there is a file.
fn drawn(text: &[u8]) -> Option<Written> {
    let written = run(&find("off2dms"), &["as-drawn"], text, 65_536);
    match off2dms_as_drawn(text) {
        Ok(file) => {
            assert!(written.output == file && written.said.is_empty(), "another file, or {:?}", written.said);
            Some(compare(&written.output, 65_536))
        }
        Err(line) => {
            let line = in_words(&line);
            assert!(written.output.is_empty() && written.said == line, "{:?}, not {line:?}", written.said);
            None
        }
    }
}

/// OFF texts of models of all kinds: what is not in the words and the counts is left to `turn`.
#[test]
fn texts_as_drawn() {
    for text in [
        "",
        "OFF",
        "OFF 0 0 0",
        "OFF 0 0 0 1",
        "OFF 1 1 0 0 0 0 0",
        "OFF 1 1 0 5 -6 7 3 0 65535 0",
        "OFF 1 1 0 0 0 0 256",
    ] {
        drawn(text.as_bytes());
    }
    let mut longest = text_of(&Tables::of(&Solid::cube()));
    for length in [1 << 20, (1 << 20) + 1] {
        longest.resize(length, b' ');
        drawn(&longest);
    }
    let mut turned = 0;
    each_case(150, 146, |_, random| {
        let mut tables = random_tables(random);
        for face in random_faces(tables.sides.len(), random) {
            tables.turn_face(face);
        }
        if random.once_in(3) {
            damage(&mut tables, *random.pick(&DAMAGES), random);
        }
        if let Some(written) = drawn(&text_of(&tables)) {
            turned += usize::from(!written.output.is_empty() && !written.said.is_empty());
        }
    });
    assert!(std::env::var_os("MAHUNOPI_CASE").is_some() || turned > 0);
}

/// The sample: `off2dms` refuses it, and the pipeline makes the prism's file of it.
#[test]
fn the_sample_becomes_the_prism() {
    let meshes = Path::new(env!("CARGO_MANIFEST_DIR")).join("../../meshes");
    let text = std::fs::read(meshes.join("drawn-wrong.off")).expect("the sample");
    assert_eq!(off2dms(&text), Err("refused 10 25\n".to_string()));
    assert_eq!(
        run(&find("off2dms"), &[], &text, 65_536).said,
        "refused 10 at corner 25: a leaving edge, with its direction, already left an earlier corner\n"
    );
    let written = drawn(&text).expect("a file");
    assert!(written.output == std::fs::read(meshes.join("prism.dms")).expect("the prism"));
    assert_eq!(written.said, "1\n4\n5\n9\n13\n");
}

/// Other arguments get the usage line.
#[test]
fn usage() {
    let said = |name: &str, arguments: &[&str]| {
        let written = run(&find(name), arguments, b"", 1);
        assert!(written.output.is_empty());
        written.said
    };
    for arguments in [&["as-drawN"][..], &["as-draw"], &["as-drawn-x"], &[""], &["as-drawn", "as-drawn"]] {
        assert_eq!(said("off2dms", arguments), "usage: off2dms [as-drawn] < TEXT > FILE\n");
    }
    assert_eq!(said("turn", &["as-drawn"]), "usage: turn < FILE > FILE\n");
}
