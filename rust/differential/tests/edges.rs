//! The programs at a shell's edges: an input that is closed, a directory or open for writing alone, or that has nothing to
//! read yet; an output that is full or closed; an argument too many. Each is said in one line on standard error, and
//! standard output has nothing. And the words of refusals, which are those of include/mahunopi.h.

use std::io::Write;
use std::os::unix::io::OwnedFd;
use std::os::unix::net::UnixStream;
use std::path::Path;
use std::process::{Command, Stdio};
use std::time::Duration;

use differential::program::{find, in_words, refusals, run};

/// The programs, each with an input that it takes and its usage line.
fn programs() -> Vec<(&'static str, Vec<u8>, &'static str)> {
    let meshes = Path::new(env!("CARGO_MANIFEST_DIR")).join("../../meshes");
    let read = |name: &str| std::fs::read(meshes.join(name)).expect("a sample");
    vec![
        ("inspect", read("cube.dms"), "inspect < FILE"),
        ("patches", read("cube.dms"), "patches < FILE"),
        ("squares", read("cube.dms"), "squares < FILE"),
        ("turn", read("cube.dms"), "turn < FILE > FILE"),
        ("off2dms", read("prism.off"), "off2dms [as-drawn] < TEXT > FILE"),
        ("archive", vec![7; 24], "archive < FILE > FILE"),
        ("restore", vec![7; 24], "restore < FILE > FILE"),
        ("nest", b"1\nsun\n".to_vec(), "nest < TABLE"),
        ("report", Vec::new(), "report [FILE ..], or report merge"),
    ]
}

/// What a program writes to standard output and to standard error behind a redirection of the shell.
fn redirected(name: &str, bytes: &[u8], redirection: &str) -> (Vec<u8>, String) {
    let path = find(name);
    let line = format!("exec \"$0\" {redirection}");
    let written = run(Path::new("/bin/sh"), &["-c", &line, path.to_str().expect("plain text")], bytes, 65_536);
    (written.output, written.said)
}

#[test]
fn inputs_that_cannot_be_read() {
    for (name, ..) in programs() {
        for (redirection, error) in
            [("<&-", "Bad file descriptor"), ("< /", "Is a directory"), ("0> /dev/null", "Bad file descriptor")]
        {
            let written = redirected(name, b"", redirection);
            assert_eq!(written, (Vec::new(), format!("standard input: {error}\n")), "{name} {redirection}");
        }
    }
}

#[test]
fn outputs_that_cannot_be_written() {
    for (name, input, _) in programs() {
        for (redirection, error) in [("> /dev/full", "No space left on device"), (">&-", "Bad file descriptor")] {
            let written = redirected(name, &input, redirection);
            assert_eq!(written, (Vec::new(), format!("standard output: {error}\n")), "{name} {redirection}");
        }
    }
}

/// An input that has nothing to read yet is waited for.
#[test]
fn inputs_that_would_block() {
    for (name, input, _) in programs() {
        let (mut near, far) = UnixStream::pair().expect("a pair");
        far.set_nonblocking(true).expect("an input that would block");
        let far: OwnedFd = far.into();
        let child = Command::new(find(name))
            .stdin(Stdio::from(far))
            .stdout(Stdio::piped())
            .stderr(Stdio::piped())
            .spawn()
            .expect("a run");
        let half = input.len() / 2;
        for part in [&input[..half], &input[half..]] {
            std::thread::sleep(Duration::from_millis(50));
            near.write_all(part).expect("a reader");
        }
        drop(near);
        let output = child.wait_with_output().expect("its output");
        let whole = run(&find(name), &[], &input, 65_536);
        assert!(!whole.output.is_empty() && output.stdout == whole.output && output.stderr.is_empty(), "{name}");
    }
}

#[test]
fn arguments_too_many() {
    for (name, input, usage) in programs() {
        let arguments = if name == "report" { ["merge", "x"] } else { ["x", "y"] };
        let written = run(&find(name), &arguments, &input, 65_536);
        assert_eq!((written.output, written.said), (Vec::new(), format!("usage: {usage}\n")));
    }
}

/// The table of the programs has the header's words, row by row; 39, 40 and 255 are refusals of C's calls alone.
#[test]
fn words_of_the_header() {
    let source = Path::new(env!("CARGO_MANIFEST_DIR")).join("../../crates/lines/src/words.rt");
    let source = std::fs::read_to_string(source).expect("the table's source");
    let mut rows = refusals();
    assert_eq!(rows.pop().map(|row| row.0), Some(255));
    assert_eq!(rows.iter().map(|row| row.0).collect::<Vec<_>>(), (1..=40).collect::<Vec<_>>());
    rows.truncate(38);
    let table: String = rows
        .iter()
        .map(|(number, name, words)| {
            format!("{number}{}: {words}\n", name.as_ref().map_or(String::new(), |name| format!(" at {name}")))
        })
        .collect();
    assert!(source.contains(&format!("b\"{table}\"")), "the rows of the header are:\n{table}");
}

/// A refusal where nothing can be printed: both lines are said. The place where a text has too few words, and one that is
/// always the same.
#[test]
fn refusals_in_words() {
    let error = "standard output: No space left on device\n";
    let words = "refused 1: the file has fewer than 11 bytes or another mark than DMS\n";
    assert_eq!(redirected("inspect", b"DMX", "> /dev/full"), (Vec::new(), format!("{error}{words}")));
    let written = run(&find("off2dms"), &[], b"OFF 1 0 0 0.5 0 0", 7);
    let words = "a needed word of the text is missing, no whole number of at most nine digits, or out of its range";
    assert_eq!((written.output, written.said), (Vec::new(), format!("refused 25 at word 4: {words}\n")));
    let written = run(&find("nest"), &[], b"sun\n1\n", 7);
    assert_eq!(
        (written.output, written.said),
        (b"refused 23 1\n".to_vec(), "refused 23 at body 1: a chain does not end at the Sun\n".to_string())
    );
    assert_eq!(in_words("refused 38 0\n"), "refused 38: a number on a page is above 2^40\n");
}
