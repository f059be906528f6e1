//! Runs the built programs on many files, and holds every byte that they write, and their status, to an answer found
//! by brute force from the rules as docs/FORMATS.md states them. Nothing here is shared with the proved code.
//!
//! ```text
//! outside test BIN DEMO     test the programs in BIN, and the files in DEMO
//! outside write-demo DEMO   write the files in DEMO anew
//! ```

mod cases;
mod commands;
mod demo;
mod files;
mod program;
mod random;
mod report;
mod rules;
mod tables;

use std::path::Path;
use std::process::ExitCode;

fn main() -> ExitCode {
    let words: Vec<String> = std::env::args().skip(1).collect();
    let words: Vec<&str> = words.iter().map(String::as_str).collect();
    match words[..] {
        ["test", bin, demo] => test(Path::new(bin), Path::new(demo)),
        ["write-demo", demo] => write_demo(Path::new(demo)),
        _ => {
            eprintln!("usage: outside test BIN DEMO, or outside write-demo DEMO");
            ExitCode::FAILURE
        }
    }
}

fn test(bin: &Path, demo: &Path) -> ExitCode {
    let mut report = report::Report::new();
    let stemma = program::Program::new(&bin.join("stemma"));
    tables::named(&mut report, &stemma);
    tables::lengths(&mut report, &stemma);
    tables::strangers(&mut report, &stemma);
    tables::largest(&mut report, &stemma);
    tables::damaged(&mut report, &stemma);
    demo::as_made(&mut report, &stemma, demo);
    commands::all(&mut report, &stemma);
    report.end()
}

fn write_demo(dir: &Path) -> ExitCode {
    match demo::write(dir) {
        Ok(()) => ExitCode::SUCCESS,
        Err(error) => {
            eprintln!("outside: cannot write the files in {}: {error}", dir.display());
            ExitCode::FAILURE
        }
    }
}
