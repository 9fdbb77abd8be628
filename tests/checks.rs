//! What passed and what failed, down to the closing line of a test.

use std::process::ExitCode;

const MOST_PRINTED: usize = 20;

#[derive(Default)]
pub struct Checks {
    passed: usize,
    failed: usize,
}

impl Checks {
    pub fn check(&mut self, ok: bool, otherwise: impl Fn() -> String) {
        if ok {
            self.passed += 1;
            return;
        }
        self.failed += 1;
        if self.failed <= MOST_PRINTED {
            println!("FAILED {}", otherwise());
        }
    }

    pub fn sum_up(&self) -> ExitCode {
        println!("{} passed, {} failed", self.passed, self.failed);
        ExitCode::from(u8::from(self.failed > 0))
    }
}
