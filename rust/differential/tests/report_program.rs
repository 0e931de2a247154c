//! The program `report` against the independent implementation: file names as arguments or on standard input, one a line;
//! on standard output the page in words, as `reference::Page` displays it, and the line `page` with its numbers; a file
//! that cannot be opened is named on standard error and not counted, and nothing else is said there where it is no
//! terminal. `report merge` makes one page of all such lines.

use std::path::{Path, PathBuf};

use differential::program::{find, in_words, run, Written};
use differential::{each_case, lists, version};
use reference::{encode, merge, report, Page};
use shapes::{damage, random_tables, Places, Random, Sharpness, Solid, Tables, DAMAGES};

/// Files in a directory of their own, which is removed in the end.
struct Archive {
    directory: PathBuf,
    names: Vec<String>,
    page: Page,
}

impl Archive {
    fn of(files: &[Vec<u8>]) -> Archive {
        let own = format!("mahunopi-report-{}-{:?}", std::process::id(), std::thread::current().id());
        let directory = std::env::temp_dir().join(own);
        std::fs::create_dir_all(&directory).expect("a directory for the files");
        let mut names = Vec::new();
        let mut page = Page::default();
        for (number, bytes) in files.iter().enumerate() {
            let path = directory.join(format!("mesh {number}.dms"));
            std::fs::write(&path, bytes).expect("a file to read from");
            names.push(path.to_str().expect("plain text").to_string());
            page = report(&page, bytes, bytes.len() as u64).expect("a page within the limits");
        }
        Archive { directory, names, page }
    }

    fn by_arguments(&self) -> Written {
        run(&find("report"), &self.names.iter().map(String::as_str).collect::<Vec<_>>(), b"", 1)
    }

    fn by_lines(&self, piece: usize) -> Written {
        let lines: String = self.names.iter().map(|name| format!("{name}\n")).collect();
        run(&find("report"), &[], lines.as_bytes(), piece)
    }
}

impl Drop for Archive {
    fn drop(&mut self) {
        let _ = std::fs::remove_dir_all(&self.directory);
    }
}

fn page_in(written: &Written) -> String {
    String::from_utf8(written.output.clone()).expect("plain text")
}

/// What the program prints of a page: its words, and the line with its numbers.
fn text_of(page: &Page) -> String {
    let numbers: String = page.numbers().iter().map(|number| format!(" {number}")).collect();
    format!("{page}page{numbers}\n")
}

fn merged(text: &str, piece: usize) -> Written {
    run(&find("report"), &["merge"], text.as_bytes(), piece)
}

fn random_file(random: &mut Random) -> Vec<u8> {
    let mut tables = random_tables(random);
    if random.once_in(3) {
        damage(&mut tables, *random.pick(&DAMAGES), random);
    }
    let mut bytes = encode(lists(&tables), version(&tables, random));
    match random.below(12) {
        0 => bytes.truncate(random.below(14)),
        1 => bytes.truncate(random.below(bytes.len())),
        2 => bytes.extend([0; 3]),
        3 => bytes[random.below(11)] ^= 1 << random.below(8),
        _ => {}
    }
    bytes
}

#[test]
fn runs_of_files() {
    each_case(30, 168, |_, random| {
        let files: Vec<Vec<u8>> = (0..random.below(20)).map(|_| random_file(random)).collect();
        let archive = Archive::of(&files);
        let written = archive.by_lines(*random.pick(&[1, 5, 65_536]));
        assert_eq!((page_in(&written), written.said), (text_of(&archive.page), String::new()));
        if !files.is_empty() {
            let written = archive.by_arguments();
            assert_eq!((page_in(&written), written.said), (text_of(&archive.page), String::new()));
        }
        // the run in parts, as `xargs -P` divides it
        let parts: String = archive
            .names
            .chunks(1 + random.below(7))
            .map(|names| page_in(&run(&find("report"), &names.iter().map(String::as_str).collect::<Vec<_>>(), b"", 1)))
            .collect();
        let written = merged(&parts, *random.pick(&[1, 100, 65_536]));
        assert_eq!((page_in(&written), written.said), (text_of(&archive.page), String::new()));
    });
}

/// A file that is not there is named and not counted; the others are.
#[test]
fn files_that_cannot_be_opened() {
    let cube = encode(lists(&Tables::of(&Solid::cube())), 1);
    let mut archive = Archive::of(&[cube.clone(), b"DMX".to_vec(), cube]);
    let missing = archive.directory.join("nothing.dms").to_str().expect("plain text").to_string();
    archive.names.insert(1, missing.clone());
    for written in [archive.by_arguments(), archive.by_lines(3)] {
        assert_eq!(page_in(&written), text_of(&archive.page));
        assert!(written.said.contains(&missing) && written.said.lines().count() == 1, "{}", written.said);
    }
}

/// Files longer than any buffer, and the largest mesh; a last line without a line feed.
#[test]
fn large_files() {
    let mut random = Random::new(169);
    let torus = Tables::relabelled(&Solid::torus(32, 64), Places::Extreme, &mut random);
    let sharp = torus.clone().sharpened(Sharpness::Random, &mut random);
    let mut files = vec![encode(lists(&torus), 1), encode(lists(&sharp), 2)];
    for (version, each) in [(1, 12 + 1 + 2), (2, 12 + 1 + 2 + 2)] {
        for more in [-1, 0, 1, 5_000_000] {
            let mut bytes = b"DMS\x01\x00\xff\xff\xff\xff\xff\xff".to_vec();
            bytes[3] = version;
            bytes.resize((11 + each * 65_535 + more) as usize, 7);
            files.push(bytes);
        }
    }
    let archive = Archive::of(&files);
    assert_eq!(page_in(&archive.by_arguments()), text_of(&archive.page));
    let written = run(&find("report"), &[], archive.names.join("\n").as_bytes(), 4_099);
    assert_eq!(page_in(&written), text_of(&archive.page));
}

/// Pages from random numbers, at and beyond their limits, merged in order from the all-zero page.
#[test]
fn pages_merged() {
    let mut refused = 0;
    each_case(200, 170, |_, random| {
        let pages: Vec<Page> = (0..random.below(5))
            .map(|_| {
                let most = *random.pick(&[1, 1 << 20, 1 << 40, u64::MAX]);
                let mut numbers: [u64; 21] = std::array::from_fn(|_| random.bits() % most.saturating_add(2));
                numbers[0] = random.bits() % *random.pick(&[1, 100, 4_097, 5_000]);
                Page::of_numbers(numbers)
            })
            .collect();
        let text: String = pages.iter().map(|page| text_of(page) + "\npag\n page 1\npages\n").collect();
        let whole = pages.iter().try_fold(Page::default(), |page, other| merge(&page, other));
        let written = merged(&text, 4_099);
        match whole {
            Ok(page) => assert_eq!((page_in(&written), written.said), (text_of(&page), String::new())),
            Err(refusal) => {
                refused += 1;
                let line = in_words(&format!("refused {} {}\n", refusal.number, refusal.place));
                assert_eq!((page_in(&written), written.said), (String::new(), line));
            }
        }
    });
    assert!(std::env::var_os("MAHUNOPI_CASE").is_some() || refused > 0);
}

/// Lines that begin as a page does and are none; and one that is the last, without a line feed.
#[test]
fn lines_that_are_no_pages() {
    let page = " 0".repeat(21);
    assert_eq!(page_in(&merged(&format!("page{page}"), 7)), text_of(&Page::default()));
    assert_eq!(page_in(&merged("", 7)), text_of(&Page::default()));
    for tail in ["", " ", "0", " 0 0", "\r", " x"] {
        for line in
            [format!("page{}{tail}", " 0".repeat(20)), format!("page{page} {tail}"), format!("page {page}{tail}")]
        {
            if line == format!("page{page}") {
                continue;
            }
            let written = merged(&format!("page{page}\nother\n{line}\npage{page}\n"), 65_536);
            assert_eq!(page_in(&written), "", "{line:?}");
            assert_eq!(written.said, "standard input: line 3 is no page: `page` and 21 numbers\n", "{line:?}");
        }
    }
    for number in ["18446744073709551616", "99999999999999999999", "-1", "+1", "1e3", "000000000000000000000000x"] {
        let line = format!("page {number}{}\n", " 0".repeat(20));
        assert_eq!(merged(&line, 65_536).said, "standard input: line 1 is no page: `page` and 21 numbers\n");
    }
    let zeros = format!("page {}{}\n", "0".repeat(1_000), " 0".repeat(20));
    assert_eq!(page_in(&merged(&zeros, 65_536)), text_of(&Page::default()));
}

/// 37: the mesh after the 4,096th, by arguments and by lines; nothing is printed.
#[test]
fn too_many_meshes() {
    let flat = Path::new(env!("CARGO_MANIFEST_DIR")).join("../../meshes/flat.dms");
    let name = flat.to_str().expect("plain text");
    for count in [4_096, 4_097] {
        let written = run(&find("report"), &[], format!("{name}\n").repeat(count).as_bytes(), 65_536);
        if count == 4_096 {
            assert!(page_in(&written).starts_with("meshes offered: 4096\n"));
            assert!(page_in(&written).contains("refused by 12: 4096\n"));
        } else {
            assert_eq!((page_in(&written), written.said), (String::new(), in_words("refused 37 4096\n")));
        }
    }
}

/// Names that are none: a directory, a line of no bytes, a line that is too long, `merge` with another argument.
#[test]
fn other_names() {
    let none = text_of(&Page::default());
    let written = run(&find("report"), &["/"], b"", 1);
    assert_eq!((page_in(&written), written.said), (none.clone(), "/: Is a directory\n".to_string()));
    let written = run(&find("report"), &[""], b"", 1);
    assert_eq!((page_in(&written), written.said), (none.clone(), ": No such file or directory\n".to_string()));
    let long = "x".repeat(5_000);
    let written = run(&find("report"), &[&long], b"", 1);
    assert_eq!((page_in(&written), written.said), (none.clone(), "argument: File name too long\n".to_string()));
    let written = run(&find("report"), &[], format!("\n{long}\n\n").as_bytes(), 512);
    assert_eq!((page_in(&written), written.said), (none.clone(), format!("{long}: File name too long\n")));
    let written = run(&find("report"), &[], "x".repeat(9_000).as_bytes(), 512);
    assert_eq!((page_in(&written), written.said), (String::new(), "standard input: a line is too long\n".to_string()));
    let written = run(&find("report"), &["merge", "x"], b"", 1);
    assert_eq!(
        (page_in(&written), written.said),
        (String::new(), "usage: report [FILE ..], or report merge\n".to_string())
    );
}

/// The stored example of crates/report is what the independent implementation makes of its files.
#[test]
fn the_stored_example() {
    let folder = Path::new(env!("CARGO_MANIFEST_DIR")).join("../../crates/report");
    let names = std::fs::read_to_string(folder.join("args")).expect("the names");
    let page = names.lines().fold(Page::default(), |page, name| {
        let bytes = std::fs::read(folder.join("data").join(name)).expect("a file");
        report(&page, &bytes, bytes.len() as u64).expect("a page")
    });
    assert_eq!(std::fs::read_to_string(folder.join("stdout")).expect("the page"), text_of(&page));
}
