//! A built program, and what it answers.

use crate::rules::Said;
use std::fs;
use std::path::{Path, PathBuf};
use std::process::{Command, Output, Stdio};

pub struct Program {
    path: PathBuf,
    /// A folder of this run's own.
    pub scratch: PathBuf,
}

impl Program {
    pub fn new(path: &Path) -> Program {
        let scratch = std::env::temp_dir().join(format!("outside-{}", std::process::id()));
        fs::create_dir_all(&scratch).expect("a folder for files");
        let path = path.canonicalize().expect("the program is built");
        Program { path, scratch }
    }

    pub fn command(&self) -> Command {
        let mut command = Command::new(&self.path);
        command.stdin(Stdio::null());
        command
    }

    pub fn path(&self) -> &Path {
        &self.path
    }

    /// What is wrong with the answer to a table's file, if anything is.
    pub fn table(&self, file: &[u8], expected: Said) -> Option<String> {
        let path = self.scratch.join("table");
        fs::write(&path, file).expect("a file to read");
        let output = self.command().arg(&path).output().expect("the program runs");
        differs(&output, expected.text().as_bytes(), expected.status())
            .map(|difference| format!("{difference}, of a file of {} bytes: {}", file.len(), shown(file)))
    }
}

impl Drop for Program {
    fn drop(&mut self) {
        let _ = fs::remove_dir_all(&self.scratch);
    }
}

/// What is wrong with an answer on standard output, with nothing on standard error.
pub fn differs(output: &Output, stdout: &[u8], status: i32) -> Option<String> {
    if output.stdout == stdout && output.stderr.is_empty() && output.status.code() == Some(status) {
        return None;
    }
    Some(format!(
        "expected {:?} and status {status}, got {:?}, {:?} and {}",
        String::from_utf8_lossy(stdout),
        String::from_utf8_lossy(&output.stdout),
        String::from_utf8_lossy(&output.stderr),
        output.status
    ))
}

/// What is wrong with a failure: nothing on standard output, one line with each of the words on standard error, status 1.
pub fn fails_otherwise(output: &Output, words: &[&str]) -> Option<String> {
    let error = String::from_utf8_lossy(&output.stderr);
    let one_line = error.ends_with('\n') && error.lines().count() == 1;
    let named = words.iter().all(|word| error.contains(word));
    if output.stdout.is_empty() && one_line && named && output.status.code() == Some(1) {
        return None;
    }
    Some(format!("expected one line with {words:?} and status 1, got {error:?} and {}", output.status))
}

/// The first bytes of a file.
fn shown(file: &[u8]) -> String {
    let bytes: Vec<String> = file.iter().take(48).map(|byte| format!("{byte:02x}")).collect();
    bytes.join(" ")
}
