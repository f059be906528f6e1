//! The command line: what the program says of itself, and of what it can't do.

use crate::files::head;
use crate::program::{differs, fails_otherwise, Program};
use crate::report::Report;
use std::ffi::OsStr;
use std::fs::{self, File};
use std::os::unix::ffi::OsStrExt;
use std::process::Command;

/// What --help prints.
const HELP: &[u8] = include_bytes!("help.txt");

pub fn all(report: &mut Report, stemma: &Program) {
    let mut one = |name: &str, difference: Option<String>| {
        let differences: Vec<String> = difference.into_iter().collect();
        report.test(name, 1, &differences);
    };
    let run = |words: &[&OsStr]| stemma.command().args(words).output().expect("the program runs");
    let word = OsStr::new;
    one("--help", differs(&run(&[word("--help")]), HELP, 0));
    one("--version", differs(&run(&[word("--version")]), b"stemma 0.1.0\n", 0));
    one("no argument", fails_otherwise(&run(&[]), &["stemma:", "no file", "--help"]));
    one("an unknown option", fails_otherwise(&run(&[word("-x")]), &["stemma:", "\"-x\"", "--help"]));
    one("two files", fails_otherwise(&run(&[word("a"), word("b")]), &["stemma:", "\"b\"", "--help"]));
    one("no such file", fails_otherwise(&run(&[word("no/such")]), &["stemma:", "\"no/such\"", "No such file"]));
    one("an empty name", fails_otherwise(&run(&[word("")]), &["stemma:", "\"\""]));
    one("a name of two lines", fails_otherwise(&run(&[word("two\nlines")]), &["stemma:", "two\\nlines"]));
    one("a folder", fails_otherwise(&run(&[word("/")]), &["stemma:", "\"/\"", "directory"]));
    one("an argument that is no text", fails_otherwise(&run(&[OsStr::from_bytes(b"\xff")]), &["stemma:", "UTF-8"]));
    one("a full disk", full_disk(stemma));
    one("want of memory", want_of_memory(stemma));
}

fn full_disk(stemma: &Program) -> Option<String> {
    let table = stemma.scratch.join("small");
    fs::write(&table, head(1, 0)).expect("a file to read");
    let full = File::options().write(true).open("/dev/full").expect("a full device");
    let output = stemma.command().arg(&table).stdout(full).output().expect("the program runs");
    fails_otherwise(&output, &["stemma:", "cannot write"])
}

/// A file of 100 MB, all of it a hole, under a limit of 20 MB of memory.
fn want_of_memory(stemma: &Program) -> Option<String> {
    let table = stemma.scratch.join("huge");
    File::create(&table).and_then(|file| file.set_len(100_000_000)).expect("a file to read");
    let output = Command::new("sh")
        .args(["-c", "ulimit -v 20000 && exec \"$0\" \"$1\""])
        .arg(stemma.path())
        .arg(&table)
        .output()
        .expect("the program runs");
    fails_otherwise(&output, &["stemma:", "huge\"", "memory"])
}
