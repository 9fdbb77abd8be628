//! This program once more, watched by valgrind: a read of what was never written shows there.

use crate::checks::Checks;
use std::env;
use std::process::{Command, Output, Stdio};

/// The words with which valgrind starts this program: for the calls, or only to see that it works.
pub const WATCHED: &str = "watched";
pub const NOTHING: &str = "nothing";

/// How it ended with a word, unless valgrind is not there.
fn run(word: &str) -> Option<Output> {
    let program = env::current_exe().expect("this program's path");
    let valgrind = Command::new("valgrind")
        .args(["--error-exitcode=9", "--quiet"])
        .arg(program)
        .arg(word)
        .stderr(Stdio::inherit())
        .output();
    valgrind.ok()
}

pub fn check(checks: &mut Checks) {
    if env::var("NO_VALGRIND").as_deref() == Ok("1") {
        return println!("without valgrind: what it would watch is not run");
    }
    // Asked first, so that a valgrind that does not work is not taken for a fault of the library.
    let works = run(NOTHING).map_or(false, |output| output.status.success());
    let watched = if works { run(WATCHED) } else { None };
    checks.check(watched.is_some(), || {
        "valgrind is not there or does not work; NO_VALGRIND=1 does without".into()
    });
    if let Some(output) = watched {
        print!("valgrind: {}", String::from_utf8_lossy(&output.stdout));
        checks.check(output.status.success(), || {
            format!("valgrind ended with {}", output.status)
        });
    }
}
