//! Counts the tests, and tells of each as it ends.

use std::process::ExitCode;

/// How many differences of one test are told in full.
const TOLD: usize = 5;

pub struct Report {
    passed: usize,
    failed: usize,
}

impl Report {
    pub fn new() -> Report {
        Report { passed: 0, failed: 0 }
    }

    /// One test, which looked at so many cases and found these differences. A test that looked at none has failed.
    pub fn test(&mut self, name: &str, cases: usize, differences: &[String]) {
        if cases > 0 && differences.is_empty() {
            self.passed += 1;
            println!("ok      {name} ({cases})");
            return;
        }
        self.failed += 1;
        println!("FAILED  {name} ({} of {cases})", differences.len());
        for difference in differences.iter().take(TOLD) {
            println!("        {difference}");
        }
    }

    pub fn end(self) -> ExitCode {
        println!("{} passed, {} failed", self.passed, self.failed);
        if self.failed == 0 {
            ExitCode::SUCCESS
        } else {
            ExitCode::FAILURE
        }
    }
}
