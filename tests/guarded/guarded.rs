//! guarded [SEED [TURNS]]: calls of the built library with each lent slice between guards, so that
//! a touch of the byte before it or behind it is a fault. A slice that may not be written is in
//! pages that nobody may write. The same calls in plain memory must leave the same. Its last line
//! is 'N passed, M failed'.

#[allow(dead_code)]
#[path = "../cache/automata.rs"]
mod automata;
#[allow(dead_code)]
#[path = "../cache/calls.rs"]
mod calls;
#[path = "../checks.rs"]
mod checks;
mod child;
mod damage;
#[path = "../draft.rs"]
mod draft;
#[path = "../search/drawn.rs"]
mod drawn;
#[path = "../forms.rs"]
mod forms;
mod guards;
mod heap;
mod inputs;
#[path = "../lengths.rs"]
mod lengths;
#[path = "../library.rs"]
mod library;
#[path = "../long.rs"]
mod long;
mod memory;
mod met;
#[allow(dead_code)]
#[path = "../cache/oracle.rs"]
mod oracle;
mod pages;
mod runs;
#[path = "../search/oracle.rs"]
mod search;
#[path = "../search/spoilt.rs"]
mod spoilt;
#[path = "../search/table.rs"]
mod table;
mod turns;
mod valgrind;

use checks::Checks;
use child::{child_end, End};
use memory::Memory;
use std::env;
use std::process::ExitCode;
use turns::{Doing, Turns};

/// Of one round.
const TURNS: u64 = 25_000;
const CACHES: usize = 300;
/// Valgrind makes everything slow.
const WATCHED_TURNS: u64 = 60;
const WATCHED_CACHES: usize = 20;

fn all(doing: &Doing) -> ExitCode {
    let mut checks = Checks::default();
    let mut memory = Memory::new();
    guards::check(&mut checks, &mut memory);
    valgrind::check(&mut checks);
    let mut all = Turns::new(checks, CACHES);
    for seed in 0..TURNS * long::rounds().end {
        all.guarded(&mut memory, doing, seed);
    }
    all.met();
    all.sum_up()
}

fn some(doing: &Doing, first: u64, count: u64) -> ExitCode {
    let mut memory = Memory::new();
    let mut some = Turns::new(Checks::default(), CACHES);
    for seed in first..first + count {
        some.guarded(&mut memory, doing, seed);
    }
    some.sum_up()
}

fn watched() -> ExitCode {
    let mut watched = Turns::new(Checks::default(), WATCHED_CACHES);
    for seed in 0..WATCHED_TURNS {
        watched.watched(seed);
    }
    watched.sum_up()
}

/// Runs in a child, which a fault may end.
fn run(doing: &Doing, words: &[String]) -> ExitCode {
    let number = |word: &String| word.parse().expect("a seed or a number of turns");
    match words {
        [] => all(doing),
        [seed] => some(doing, number(seed), 1),
        [first, count, ..] => some(doing, number(first), number(count)),
    }
}

fn main() -> ExitCode {
    let words: Vec<String> = env::args().skip(1).collect();
    match words.first().map(String::as_str) {
        Some(valgrind::NOTHING) => return ExitCode::SUCCESS,
        Some(valgrind::WATCHED) => return watched(),
        _ => {}
    }
    let doing = Doing::nothing();
    match child_end() {
        None => run(&doing, &words),
        Some(End::Exit(status @ 0..=1)) => ExitCode::from(status),
        Some(end) => {
            println!("FAILED {}: {end:?}", doing.text());
            println!("0 passed, 1 failed");
            ExitCode::FAILURE
        }
    }
}
