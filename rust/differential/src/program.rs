//! Runs of the programs that `.ci/programs` leaves in target/bin; MAHUNOPI_BIN names another directory that has them. And what
//! they say of a refusal, in the words of include/mahunopi.h.

use std::io::Write;
use std::path::{Path, PathBuf};
use std::process::{Command, Stdio};

/// What a run wrote to standard output and to standard error.
pub struct Written {
    pub output: Vec<u8>,
    pub said: String,
}

/// The program's executable.
pub fn find(name: &str) -> PathBuf {
    let root = Path::new(env!("CARGO_MANIFEST_DIR")).join("../..");
    let directory = std::env::var_os("MAHUNOPI_BIN").map_or_else(|| root.join("target/bin"), PathBuf::from);
    let path = directory.join(name);
    assert!(path.is_file(), "{} is not there: run `rt check {name}`", path.display());
    path
}

/// A run with these arguments, whose standard input gets the bytes in pieces of `piece`.
pub fn run(program: &Path, arguments: &[&str], bytes: &[u8], piece: usize) -> Written {
    let mut child = Command::new(program)
        .args(arguments)
        .stdin(Stdio::piped())
        .stdout(Stdio::piped())
        .stderr(Stdio::piped())
        .spawn()
        .expect("a run of the program");
    let mut input = child.stdin.take().expect("its input");
    let pieces: Vec<Vec<u8>> = bytes.chunks(piece).map(<[u8]>::to_vec).collect();
    let writer = std::thread::spawn(move || {
        for piece in pieces {
            // a program that has seen enough of a file may close its input
            if input.write_all(&piece).and_then(|()| input.flush()).is_err() {
                break;
            }
        }
    });
    let written = child.wait_with_output().expect("its output");
    writer.join().expect("the writer");
    Written { output: written.stdout, said: String::from_utf8(written.stderr).expect("plain text") }
}

/// What include/mahunopi.h says of each refusal: its number, what its place is, where that is not always the same number,
/// and what is wrong.
pub fn refusals() -> Vec<(u32, Option<String>, String)> {
    let header = include_str!("../../../include/mahunopi.h");
    let (_, body) = header.split_once("enum mahunopi_refusal {").expect("the enumeration");
    let (body, _) = body.split_once("};").expect("its end");
    let mut rows = Vec::new();
    for part in body.split("/*").skip(1) {
        let (comment, constant) = part.split_once("*/").expect("a comment");
        let lines = comment.lines().map(|line| line.trim().trim_start_matches("* "));
        let text = lines.collect::<Vec<_>>().join(" ");
        let (words, place) = text.split_once(" (place").expect("a place");
        let name =
            place.strip_prefix(": the ").map(|name| name[..name.find(&[',', ')'][..]).expect("its end")].to_string());
        let (_, number) = constant.split_once('=').expect("a number");
        let number = number.trim().trim_end_matches(',').parse().expect("a number");
        rows.push((number, name, words.trim().to_string()));
    }
    rows
}

/// What a program says on standard error for the line `refused N P`. Every other line stays as it is.
pub fn in_words(line: &str) -> String {
    let numbers = match line.strip_prefix("refused ") {
        Some(numbers) => numbers,
        None => return line.to_string(),
    };
    let (number, place) = numbers.trim_end().split_once(' ').expect("number and place");
    let rows = refusals();
    let (_, name, words) = rows.iter().find(|row| row.0.to_string() == number).expect("a number of the header");
    let place = name.as_ref().map_or(String::new(), |name| format!(" at {name} {place}"));
    format!("refused {number}{place}: {words}\n")
}

/// What a program says on standard error beside what it prints: the words of a refusal, else nothing.
pub fn beside(printed: &str) -> String {
    if printed.starts_with("refused ") {
        in_words(printed)
    } else {
        String::new()
    }
}
