// Times the writing and the judging of runs, document 02's Change 2, by the proved crate exports: the
// writing beside the successors that the run goes along, in plain Rust, and the judging beside the
// tests' own judge. Each run must pass both judges; a ratio fails nothing.

#[path = "../tests/branches.rs"]
mod branches;
#[path = "../tests/draft.rs"]
mod draft;
#[path = "../tests/story/judge.rs"]
mod judge;
#[path = "../tests/lengths.rs"]
mod lengths;
#[path = "../tests/library.rs"]
mod library;
mod literal;
#[path = "../tests/search/oracle.rs"]
mod oracle;
mod plain;
#[path = "../tests/rings.rs"]
mod rings;
mod times;

use branches::{circle, loose, round, strict, widened, Far};
use draft::{Draft, Edge};
use judge::Judge;
use lengths::slot;
use literal::Search;
use rings::FREE;
use std::time::Duration;
use times::{best_within, nanoseconds, opaque};

// A row is timed for at least so many turns and so long.
const TURNS: u32 = 5;
const LEAST_TIME: Duration = Duration::from_millis(400);
// Of the run that is judged.
const NUMBERS: usize = 10_000_000;

// ---- writing
// Location after location, with no ring to go round: the search compares a zone with no other. Each
// edge resets one clock and asks for 1 of it.
fn chain(clocks: usize) -> Far {
    let edge = |from: u8| {
        let clock = from as usize % clocks;
        let mut guard = vec![FREE; clocks];
        guard[clock].0 = 1;
        Edge {
            from,
            to: from + 1,
            reset: 1 << clock,
            guard,
        }
    };
    let draft = Draft {
        start: 0,
        target: 63,
        invariants: vec![vec![(0, 9); clocks]; 64],
        edges: (0..63).map(edge).collect(),
    };
    (draft, 63)
}

// Microseconds of a search, of the same with its run written, and of the branch's successors in Rust.
fn written(name: &str, (draft, jumps): Far) {
    let automaton = draft.bytes();
    let mut store = vec![0; (jumps + 2) * slot(&automaton)];
    let mut run = vec![0; 2 * jumps + 2];
    let branch = oracle::search_with_branch(&automaton, &mut store).1;
    let branch = branch.expect("the target is reached");
    assert_eq!(branch.len(), jumps, "{name}: the jumps");
    let reply = library::write_run(&automaton, &mut store, &mut run);
    assert!(matches!(reply, Ok([0, ..])), "{name}: {reply:?}");
    assert_eq!(run[0], run.len() as i64, "{name}: its own count");
    let edges = branch.iter().map(|edge| *edge as i64);
    assert!(
        run[2..].iter().step_by(2).copied().eq(edges),
        "{name}: the branch's edges"
    );
    assert!(Judge::of(&automaton).passes(&run), "{name}: the run");
    assert_eq!(library::judge(&automaton, &run), Ok(true), "{name}");
    let [search, both, successors] = best_within(TURNS, LEAST_TIME, |side| {
        let time = match side {
            0 => nanoseconds(|| library::search(opaque(&automaton), &mut store)),
            1 => nanoseconds(|| library::write_run(opaque(&automaton), &mut store, &mut run)),
            _ => nanoseconds(|| Search::along(opaque(&automaton), &branch)),
        };
        time / 1e3
    });
    let (clocks, writing) = (automaton[5], both - search);
    print!("{name:8} {clocks:6} {jumps:6} {search:11.1} {both:11.1} {writing:10.1}");
    print!(" {:6.2} {successors:11.1}", writing / search);
    println!(" {:6.2}", writing / successors);
}

// ---- judging
fn judged(name: &str, resets: &[u8], clocks: usize) {
    let jumps = NUMBERS / 2 - 1;
    let automaton = circle(resets, clocks, jumps).bytes();
    let run = round(resets.len(), jumps);
    let judge = Judge::of(&automaton);
    assert_eq!(library::judge(&automaton, &run), Ok(true), "{name}");
    assert!(judge.passes(&run), "{name}");
    let [ours, rust] = best_within(TURNS, LEAST_TIME, |side| {
        let time = match side {
            0 => nanoseconds(|| library::judge(opaque(&automaton), opaque(&run))),
            _ => nanoseconds(|| judge.passes(opaque(&run))),
        };
        time / NUMBERS as f64
    });
    println!(
        "{name:8} {clocks:6} {ours:10.2} {rust:8.2} {:6.2}",
        ours / rust
    );
}

fn main() {
    println!("microseconds for a search, for the same with its run written, for what that adds, and for the branch's successors in Rust");
    print!("branch   clocks  jumps      search  with a run    writing  ratio");
    println!("  successors  ratio");
    for clocks in [1, 2, 4, 8] {
        written("chain", chain(clocks));
    }
    written("strict", strict(1_000));
    written("strict", strict(5_000));
    written("loose", loose(10_001));
    written("loose", widened(loose(4_321), 4));
    written("loose", widened(loose(4_321), 8));
    println!("nanoseconds for each of {NUMBERS} numbers that are judged");
    println!("run      clocks     Rattle     Rust  ratio");
    judged("round", &[1], 1);
    judged("round", &[0x0f, 0xf0], 8);
}
