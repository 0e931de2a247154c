//! Finds the proved library, libmahunopi.a in the directory that MAHUNOPI_LIB names, or where `.ci/staticlib`
//! writes it; and makes the table of refusals from the comments of include/mahunopi.h, the one source of their words.

use std::fmt::Write;
use std::path::PathBuf;

fn main() {
    let variable = |name| std::env::var_os(name).map(PathBuf::from);
    let root = variable("CARGO_MANIFEST_DIR").expect("cargo names the package's directory").join("../..");

    println!("cargo:rerun-if-env-changed=MAHUNOPI_LIB");
    let directory = variable("MAHUNOPI_LIB").unwrap_or_else(|| root.join("target/staticlib"));
    let archive = directory.join("libmahunopi.a");
    println!("cargo:rerun-if-changed={}", archive.display());
    if !archive.is_file() {
        eprintln!(
            "{} is not there: run `.ci/staticlib` in the repository's root, or set MAHUNOPI_LIB to the \
                   directory that has it",
            archive.display()
        );
        std::process::exit(1);
    }
    println!("cargo:rustc-link-search=native={}", directory.display());
    println!("cargo:rustc-link-lib=static=mahunopi");

    let header = root.join("include/mahunopi.h");
    println!("cargo:rerun-if-changed={}", header.display());
    let text = std::fs::read_to_string(&header).unwrap_or_else(|error| panic!("{}: {error}", header.display()));
    let table = variable("OUT_DIR").expect("cargo names a directory to write to").join("faults.rs");
    std::fs::write(table, faults(&text)).expect("cargo's own directory can be written to");
}

/// The entries of `enum mahunopi_refusal` as a call of the macro `faults`: name, number, words, and what the place is.
fn faults(header: &str) -> String {
    let from = header.split("enum mahunopi_refusal {").nth(1).expect("the header has enum mahunopi_refusal");
    let body = from.split("};").next().expect("a split has a first part");
    let mut made = String::from("faults! {\n");
    // a comment, then NAME = NUMBER
    for entry in body.split("/*").skip(1) {
        let (comment, rest) = entry.split_once("*/").expect("a comment ends");
        let (name, number) = rest.split_once('=').expect("an entry after its comment");
        let lines: Vec<&str> = comment.lines().map(|line| line.trim().trim_start_matches('*').trim()).collect();
        let line = lines.join(" ");
        let (words, place) = words_and_place(line.trim());
        let number = number.trim().trim_end_matches(',');
        let name = name.trim().strip_prefix("MAHUNOPI_").expect("names of the header");
        writeln!(made, "    {} = {number}, {words:?}, {place:?};", camel(name)).expect("a string takes all");
    }
    made + "}\n"
}

/// `what is wrong (place 0)`, or `what is wrong (place: the NOUN, in full)`, each with more behind a semicolon.
fn words_and_place(comment: &str) -> (&str, Option<&str>) {
    let found = comment.split_once(" (place").and_then(|(words, rest)| {
        let (place, after) = rest.split_once(')')?;
        let noun = place.strip_prefix(": the ").and_then(|noun| noun.split(',').next());
        let number = place.starts_with(' ') && place[1..].chars().all(|sign| sign.is_ascii_digit() || sign == ',');
        let ends = after.is_empty() || after.starts_with("; ");
        ((noun.is_some() || number) && ends).then_some((words, noun))
    });
    found.unwrap_or_else(|| panic!("the comment is not of the form 'what is wrong (place: the NOUN)': {comment}"))
}

/// BAD_MARK as BadMark.
fn camel(name: &str) -> String {
    let word = |word: &str| word[..1].to_string() + &word[1..].to_lowercase();
    name.split('_').map(word).collect()
}
