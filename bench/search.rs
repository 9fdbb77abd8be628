// Times the search of the proved crate exports beside two in Rust: bench/literal.rs, which makes
// the same comparisons in the same order, and the independent one that the tests hold ours to.
// All must give the same answer, with both fractions and the zones dropped, and store; a ratio fails
// nothing.
//
// search: the table. search FAMILY ...: the rows of these families. search one SIDE AUTOMATON: one
// search alone, for its instructions to be counted.

#[path = "../tests/draft.rs"]
mod draft;
mod draws;
mod heavy;
#[path = "../tests/lengths.rs"]
mod lengths;
#[path = "../tests/library.rs"]
mod library;
mod literal;
#[path = "../tests/search/oracle.rs"]
mod oracle;
mod plain;
#[path = "../tests/rings.rs"]
mod rings;
mod searched;
mod sides;
mod times;

use lengths::slot;
use searched::{Case, Family, FAMILIES};
use sides::{one_search, Answer, SIDES};
use std::time::Duration;
use times::{best_within, nanoseconds};

// What the store has before, to see that the rest of it stands. No location has this number.
const UNTOUCHED: i32 = -7;
// Nanoseconds: a reading is of so many searches that it is not shorter.
const SHORTEST: f64 = 200_000.0;
// An automaton is timed for at least so long.
const LEAST_TIME: Duration = Duration::from_millis(400);

// ---- one automaton
struct Timed<'a> {
    case: &'a Case,
    store: Vec<i32>,
    // What the first search answered and left, which the last of each reading must too.
    first: Option<(Answer, Vec<i32>)>,
}

impl Timed<'_> {
    // Nanoseconds of so many searches by a side.
    fn reading(&mut self, side: usize, searches: u32) -> f64 {
        let (case, store, side) = (self.case, &mut self.store, &SIDES[side]);
        store.fill(UNTOUCHED);
        let mut answer = Err(0);
        let time = nanoseconds(|| {
            for _ in 0..searches {
                answer = one_search(side, &case.automaton, store);
            }
        });
        let (expected, left) = self.first.get_or_insert_with(|| (answer, store.clone()));
        assert_eq!(
            answer, *expected,
            "{}: the answer of {}",
            case.name, side.name
        );
        assert!(store == left, "{}: the store of {}", case.name, side.name);
        time
    }

    // Microseconds of one search by each side.
    fn times(&mut self) -> [f64; 3] {
        // One at first, so that each side is also compared with nothing of its own in the store.
        let mut searches = [1; 3];
        best_within(self.case.repetitions, LEAST_TIME, |i| loop {
            let reading = self.reading(i, searches[i]);
            if SHORTEST <= reading {
                return reading / 1e3 / searches[i] as f64;
            }
            searches[i] *= 2;
        })
    }
}

fn told(answer: Answer) -> String {
    match answer {
        Ok([0, ..]) => "reached".into(),
        Ok([_, 1, 0, ..]) => "holds any".into(),
        Ok([_, n, d, ..]) => format!("holds {n}/{d}"),
        Err(number) => format!("refused {number}"),
    }
}

fn kept(case: &Case, store: &[i32]) -> usize {
    let slots = store.chunks_exact(slot(&case.automaton));
    slots.take_while(|slot| slot[0] != UNTOUCHED).count()
}

// ---- the table
struct Row {
    clocks: u8,
    // Ours over that of each other side.
    ratios: [f64; 2],
}

fn row(case: &Case) -> Row {
    let store = vec![UNTOUCHED; case.store];
    let mut timed = Timed {
        case,
        store,
        first: None,
    };
    let [ours, literal, independent] = timed.times();
    let (answer, store) = timed.first.expect("a search");
    let (answer, zones) = (told(answer), kept(case, &store));
    let ratios = [ours / literal, ours / independent];
    let (clocks, locations, edges) = (case.clocks(), case.locations(), case.edges());
    print!(
        "{:26} {clocks:6} {locations:9} {edges:5} {answer:>13} {zones:6}",
        case.name
    );
    println!(
        " {ours:11.2} {literal:11.2} {:6.2} {independent:11.2} {:6.2}",
        ratios[0], ratios[1]
    );
    Row { clocks, ratios }
}

fn print_mean(name: &str, rows: &[Row], counts: impl Fn(&Row) -> bool) {
    let counted: Vec<&Row> = rows.iter().filter(|row| counts(row)).collect();
    if counted.is_empty() {
        return;
    }
    let sum = |i: usize| counted.iter().map(|row| row.ratios[i].ln()).sum::<f64>();
    let [literal, independent] = [0, 1].map(|i| (sum(i) / counted.len() as f64).exp());
    println!(
        "{name:26} {:6} {literal:67.2} {independent:18.2}",
        counted.len()
    );
}

fn print_table(families: impl Iterator<Item = &'static Family>) {
    let cases: Vec<Case> = families.flat_map(|family| (family.cases)()).collect();
    println!("microseconds for one search, and ours over each of the others");
    print!(
        "{:26} clocks locations edges        answer  zones",
        "automaton"
    );
    println!("      Rattle     literal  ratio independent  ratio");
    let rows: Vec<Row> = cases.iter().map(row).collect();
    println!("geometric means of the ratios, and of how many");
    print_mean("all", &rows, |_| true);
    print_mean("at most 4 clocks", &rows, |row| row.clocks <= 4);
    print_mean("more than 4 clocks", &rows, |row| 4 < row.clocks);
}

fn one(side: &str, name: &str) {
    let side = SIDES.iter().find(|s| s.name == side).expect("a side");
    let mut cases = FAMILIES.iter().flat_map(|family| (family.cases)());
    let case = cases.find(|c| c.name == name).expect("an automaton");
    let answer = one_search(side, &case.automaton, &mut vec![UNTOUCHED; case.store]);
    println!("{}", told(answer));
}

fn family(name: &str) -> &'static Family {
    let mut families = FAMILIES.iter();
    let family = families.find(|family| family.name == name);
    family.unwrap_or_else(|| panic!("no family {name}"))
}

fn main() {
    let words: Vec<String> = std::env::args().skip(1).collect();
    match &words[..] {
        [] => print_table(FAMILIES.iter()),
        [word, side, name] if word == "one" => one(side, name),
        names => print_table(names.iter().map(|name| family(name))),
    }
}
