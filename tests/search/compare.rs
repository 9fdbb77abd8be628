//! compare PROGRAM EXAMPLES: holds the program to document 01's cards and to a second search.
//! Its last line is 'N passed, M failed'.

#[path = "../checks.rs"]
mod checks;
#[path = "../draft.rs"]
mod draft;
mod drawn;
#[path = "../dropped.rs"]
mod dropped;
#[path = "../lengths.rs"]
mod lengths;
#[path = "../long.rs"]
mod long;
mod oracle;
mod spoilt;
mod table;

use checks::Checks;
use draft::{recount, Draft};
use drawn::{Dice, Lean, Size};
use lengths::slot_of;
use oracle::{Counts, Outcome};
use spoilt::spoilt;
use std::collections::BTreeMap;
use std::io::Write;
use std::path::Path;
use std::process::{Command, ExitCode, Stdio};
use std::{env, fs};
use table::named;

const STORE: usize = 16_384;
const READ: usize = 21_260;
const SOUND: u64 = 4_000;
const SHORTCUTS: u64 = 300;
const DROPPING: u64 = 1_000;
const SPOILT: u64 = 2_000;
/// A comparison in which an answer hardly occurs would say little about it.
const LEAST: usize = 40;
const BELOW: &str = "holds, the exact fraction below the safe one";
const AGAIN: &str = "again";
const INSIDE: &str = "inside";
const BOTH: &str = "again and inside";
const REACHED: &str = "reached, zones dropped";
/// Which the program does not print: document 01's, which every comparison lowers. By hand: a guard with
/// lo 5, document 02's lo 1, or a lo 2 of ours, of a clock that may be 0 has the threshold 5/1, 1/1, or 2/1.
const EXACT: [(&str, (i64, i64)); 11] = [
    ("A", (1, 1)),
    ("B", (5, 1)),
    ("C", (1, 1)),
    ("D", (1, 0)),
    ("E", (2, 1)),
    ("G", (3, 1)),
    ("H", (1, 0)),
    ("looping", (1, 1)),
    ("inside", (2, 1)),
    ("oldest", (2, 1)),
    ("dropped-then-reached", (2, 1)),
];

/// All that the program writes for an automaton, or how it ended.
fn program_says(program: &Path, automaton: &[u8]) -> String {
    let mut child = Command::new(program)
        .stdin(Stdio::piped())
        .stdout(Stdio::piped())
        .spawn()
        .expect("the program starts");
    // The program may end before it has read all of a long input: a broken pipe is no fault.
    let _ = child
        .stdin
        .take()
        .expect("its input is piped")
        .write_all(automaton);
    let output = child.wait_with_output().expect("the program ends");
    if !output.status.success() {
        return format!("{}", output.status);
    }
    String::from_utf8_lossy(&output.stdout).into_owned()
}

/// What the program should make of its input: only the first bytes count, and its store is fixed. Beside
/// it the exact fraction.
fn searched(automaton: &[u8]) -> (Outcome, (i64, i64)) {
    oracle::search_with_exact(&automaton[..automaton.len().min(READ)], &mut [0; STORE])
}

fn oracle_says(automaton: &[u8]) -> Outcome {
    searched(automaton).0
}

fn same(checks: &mut Checks, what: &str, got: &str, expected: &str) {
    checks.check(got == expected, || {
        format!("{}: {:?} and not {:?}", what, got, expected)
    });
}

/// A line that is known without either search.
fn both_say(checks: &mut Checks, program: &Path, what: &str, automaton: &[u8], line: &str) {
    let said = program_says(program, automaton);
    same(checks, what, &said, &format!("{}\n", line));
    let said = oracle_says(automaton).to_string();
    same(checks, &format!("oracle, {}", what), &said, line);
}

/// The rows of the examples' README with the line each must give: | `NAME.card` | .. | `LINE` |
fn expectations(readme: &str) -> BTreeMap<String, String> {
    let plain = |cell: &str| cell.trim().trim_matches('`').to_string();
    let mut rows = BTreeMap::new();
    for line in readme.lines().filter(|l| l.starts_with("| `")) {
        let cells: Vec<&str> = line.split('|').collect();
        rows.insert(plain(cells[1]), plain(cells[cells.len() - 2]));
    }
    rows
}

fn examples(checks: &mut Checks, program: &Path, folder: &Path) {
    let readme = fs::read_to_string(folder.join("README.md")).expect("the examples' README");
    let mut rows = expectations(&readme);
    for (name, built) in table::automata() {
        let file = format!("{}.card", name);
        let automaton = fs::read(folder.join(&file)).unwrap_or_default();
        checks.check(automaton == built, || {
            format!("{} is not {:02x?}", file, built)
        });
        let line = rows.remove(&file).unwrap_or_default();
        both_say(checks, program, &file, &automaton, &line);
    }
    checks.check(rows.is_empty(), || {
        format!("examples that are not in the table: {:?}", rows.keys())
    });
}

/// Document 01's results for stores that the program does not lend, with document 02's slots.
fn other_stores(checks: &mut Checks) {
    let wheel = slot_of(2);
    let none = "holds 2/1 zones 0 again 0 inside 0";
    let one = "holds 1/1 zones 1 again 0 inside 0";
    let target = "E at its target with an empty store";
    let enough = "the wheel with slots enough";
    let holds = [
        ("E with an empty store", "E", 0, none),
        (target, "E-start-is-target", 0, none),
        ("I with 10 numbers", "A", 10, "refused 10"),
        ("I with 11 numbers", "A", 11, one),
        ("the wheel with 12 slots", "K", 12 * wheel, "refused 10"),
        (enough, "K", 65_535 * wheel, "refused 9"),
    ];
    for (what, name, numbers, line) in holds {
        let got = oracle::search(&named(name), &mut vec![0; numbers]).to_string();
        same(checks, &format!("oracle, {}", what), &got, line);
    }

    let mut store = [7; 14];
    oracle::search(&named("A"), &mut store);
    let left = [0, -1, -1, 0, 0, 0, 0, 5, 1, 0, 0, 7, 7, 7];
    checks.check(store == left, || {
        format!("oracle, the store of I is {:?}", store)
    });
}

fn exact_fractions(checks: &mut Checks) {
    for (name, exact) in EXACT {
        let got = searched(&named(name)).1;
        checks.check(got == exact, || {
            format!("oracle, {}: exact {:?} and not {:?}", name, got, exact)
        });
    }
}

/// Document 02's Change 5, by hand.
fn dropped_zones(checks: &mut Checks, program: &Path) {
    for case in dropped::all() {
        both_say(checks, program, &case.name, &case.automaton, &case.line());
    }
}

/// Automata that need every slot of the program's store, and one slot more.
fn full_stores(checks: &mut Checks, program: &Path) {
    for clocks in 5..=8 {
        let slots = STORE / slot_of(clocks);
        let full = format!("holds any zones {} again 0 inside 0", slots);
        for (edges, line) in [(slots - 1, full.as_str()), (slots, "refused 10")] {
            let automaton = drawn::crowd(clocks, edges).bytes();
            let what = format!("{} clocks, {} edges", clocks, edges);
            both_say(checks, program, &what, &automaton, line);
        }
    }
}

fn sound(dice: &mut Dice, turn: u64) -> Draft {
    let lean = [Lean::Plain, Lean::Calm, Lean::Guarded, Lean::Wheel][turn as usize % 4];
    let size = match turn % 200 {
        // The largest that there is.
        7 => Size {
            clocks: 8,
            locations: 64,
            edges: 256,
        },
        _ => Size::drawn(dice),
    };
    drawn::drawn(dice, lean, &size)
}

/// Inputs around the number of bytes that count. The length field tells the automaton's, all, or
/// those.
fn long_inputs() -> Vec<Vec<u8>> {
    let mut inputs = Vec::new();
    for length in [READ, READ + 1, READ + 5_000] {
        let mut input = named("largest");
        input.resize(length, 0);
        inputs.push(input.clone());
        recount(&mut input);
        inputs.push(input.clone());
        recount(&mut input[..READ]);
        inputs.push(input);
    }
    inputs
}

/// Whether the program would print another fraction if it printed the exact one.
fn is_below(outcome: Outcome, exact: (i64, i64)) -> bool {
    match outcome {
        Outcome::Holds { n, d, .. } => exact != (n, d),
        Outcome::HoldsAny { .. } => exact != (1, 0),
        _ => false,
    }
}

fn kind(outcome: Outcome) -> String {
    match outcome {
        Outcome::Reached { .. } => "reached".into(),
        Outcome::Holds { .. } => "holds n/d".into(),
        Outcome::HoldsAny { .. } => "holds any".into(),
        Outcome::Refused(_) => outcome.to_string(),
    }
}

/// Which zones were dropped by containment.
fn drops(outcome: Outcome) -> Vec<&'static str> {
    let (counts, reached) = match outcome {
        Outcome::Reached { counts } => (counts, true),
        Outcome::Holds { counts, .. } | Outcome::HoldsAny { counts } => (counts, false),
        Outcome::Refused(_) => return Vec::new(),
    };
    let Counts { again, inside, .. } = counts;
    let met = [
        (AGAIN, again > 0),
        (INSIDE, inside > 0),
        (BOTH, again > 0 && inside > 0),
        (REACHED, reached && again + inside > 0),
    ];
    let met = met.into_iter().filter(|(_, met)| *met);
    met.map(|(label, _)| label).collect()
}

fn random_automata(round: u64) -> Vec<Vec<u8>> {
    let mut dice = Dice::new(1 + 1_000 * round);
    let mut automata = long_inputs();
    automata.extend((0..SOUND).map(|turn| sound(&mut dice, turn).bytes()));
    automata.extend((0..SHORTCUTS).map(|_| drawn::shortcut(&mut dice).bytes()));
    automata.extend((0..DROPPING).map(|_| dropped::drawn(&mut dice).bytes()));
    automata.extend((0..SPOILT).map(|turn| {
        let draft = sound(&mut dice, turn);
        spoilt(&mut dice, draft)
    }));
    automata
}

fn comparison(checks: &mut Checks, program: &Path) {
    let automata: Vec<Vec<u8>> = long::rounds().flat_map(random_automata).collect();
    let mut seen: BTreeMap<String, usize> = BTreeMap::new();
    for automaton in &automata {
        let (expected, exact) = searched(automaton);
        *seen.entry(kind(expected)).or_default() += 1;
        *seen.entry(BELOW.into()).or_default() += usize::from(is_below(expected, exact));
        for label in drops(expected) {
            *seen.entry(label.into()).or_default() += 1;
        }
        let got = program_says(program, automaton);
        checks.check(got == format!("{}\n", expected), || {
            format!(
                "automaton {:02x?}\n  program: {:?}\n  oracle: {}",
                automaton, got, expected
            )
        });
    }
    println!("{} random automata: {:?}", automata.len(), seen);
    // Not 9: a zone that k jumps lead to has error counts of at most k + 1, which the program's
    // slots are too few for.
    let refusals = [1, 2, 3, 4, 5, 6, 7, 8, 10].map(|number| format!("refused {}", number));
    let verdicts = ["reached", "holds n/d", "holds any", BELOW].map(String::from);
    let dropped = [AGAIN, INSIDE, BOTH, REACHED].map(String::from);
    for answer in refusals.iter().chain(&verdicts).chain(&dropped) {
        let times = seen.get(answer).copied().unwrap_or(0);
        checks.check(times >= LEAST, || {
            format!("only {} random automata give {}", times, answer)
        });
    }
}

fn main() -> ExitCode {
    let words: Vec<String> = env::args().collect();
    if words.len() != 3 {
        eprintln!("usage: compare PROGRAM EXAMPLES");
        return ExitCode::from(2);
    }
    let (program, folder) = (Path::new(&words[1]), Path::new(&words[2]));
    let mut checks = Checks::default();
    examples(&mut checks, program, folder);
    other_stores(&mut checks);
    exact_fractions(&mut checks);
    dropped_zones(&mut checks, program);
    full_stores(&mut checks, program);
    comparison(&mut checks, program);
    checks.sum_up()
}
