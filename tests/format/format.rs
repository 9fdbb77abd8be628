// Holds docs/FORMAT.md to itself and to the proved library: its tables add up, its dumps have their
// fields where the tables say, and the library reads and writes exactly the dumps.

#[path = "../checks.rs"]
mod checks;
mod document;
mod forms;
#[path = "../library.rs"]
mod library;
mod own;
mod ranges;
mod runs;

use checks::Checks;
use document::{dump, Dump};
use library::{canonical, consult, judge, look_up, make_empty, search, sound, write_run, Verdict};
use std::process::ExitCode;

// What bytes, stores and buffers for runs have before, to see that they stand.
const BYTE: u8 = 0xA5;
const NUMBER: i32 = -7;
const RUN: i64 = -7;

// Document 01's card A holds up to 1/1, with one zone.
const HOLDS: Verdict = [1, 1, 1, 1];

// The document, its dumps, and the file that its automaton is.
struct Format {
    text: String,
    example: Vec<u8>,
    automaton: Dump,
    slot: Dump,
    run: Dump,
    cache: Dump,
}

impl Format {
    fn is_example(&self) -> bool {
        self.automaton.bytes() == self.example
    }

    fn is_searched(&self) -> bool {
        let slot = self.slot.numbers();
        let mut store = vec![NUMBER; slot.len()];
        search(&self.automaton.bytes(), &mut store) == Ok(HOLDS) && store == slot
    }

    // A buffer that has just enough bytes for any form of the automaton's.
    fn room(&self) -> Vec<u8> {
        vec![BYTE; self.automaton.bytes().len()]
    }

    // With lent bytes and numbers to spare, which stand. The automaton is its own form.
    fn is_filed(&self) -> bool {
        let (mut expected, mut numbers) = (self.cache.bytes(), self.slot.numbers());
        let mut form = self.room();
        form.extend([BYTE; 3]);
        let mut cache = vec![BYTE; expected.len() + 3];
        let mut store = vec![NUMBER; numbers.len() + 3];
        expected.extend([BYTE; 3]);
        numbers.extend([NUMBER; 3]);
        make_empty(&mut cache) == 0
            && consult(&mut cache, &self.automaton.bytes(), &mut form, &mut store) == Ok(HOLDS)
            && form == [&self.automaton.bytes()[..], &[BYTE; 3]].concat()
            && cache == expected
            && store == numbers
    }

    fn fits_exactly(&self) -> bool {
        let expected = self.cache.bytes();
        let mut cache = vec![BYTE; expected.len()];
        let mut store = vec![NUMBER; self.slot.numbers().len()];
        let mut form = self.room();
        make_empty(&mut cache) == 0
            && consult(&mut cache, &self.automaton.bytes(), &mut form, &mut store) == Ok(HOLDS)
            && cache == expected
    }

    fn is_found(&self) -> bool {
        let (cache, automaton) = (self.cache.bytes(), self.automaton.bytes());
        sound(&cache) == 0 && look_up(&cache, &automaton, &mut self.room()) == Ok(Some(HOLDS))
    }

    // It has one edge, which is in order; no byte is to spare.
    fn is_canonical(&self) -> bool {
        let (automaton, mut form) = (self.automaton.bytes(), self.room());
        canonical(&automaton, &mut form) == Ok(automaton.len()) && form == automaton
    }

    // No store is asked for where the verdict is filed.
    fn is_consulted_again(&self) -> bool {
        let mut cache = self.cache.bytes();
        consult(
            &mut cache,
            &self.automaton.bytes(),
            &mut self.room(),
            &mut [],
        ) == Ok(HOLDS)
            && cache == self.cache.bytes()
    }

    // 1 to 8, each by another length or one other byte of the automaton.
    fn automata_are_refused(&self) -> bool {
        let edits = [
            (10, 0, 0),
            (37, 0, 0),
            (38, 4, 2),
            (38, 5, 9),
            (39, 3, 39),
            (38, 7, 2),
            (38, 29, 2),
            (38, 30, 1),
        ];
        edits.iter().zip(1..).all(|(&(length, at, byte), number)| {
            let mut automaton = self.automaton.bytes();
            automaton.resize(length, 0);
            automaton[at] = byte;
            let (mut cache, mut store) = (self.cache.bytes(), self.slot.numbers());
            let (mut form, mut run) = (self.room(), [RUN; 4]);
            search(&automaton, &mut store) == Err(number)
                && write_run(&automaton, &mut store, &mut run) == Err(number)
                && judge(&automaton, &run) == Err(number)
                && canonical(&automaton, &mut form) == Err(number)
                && look_up(&cache, &automaton, &mut form) == Err(number)
                && consult(&mut cache, &automaton, &mut form, &mut store) == Err(number)
                && (cache, store) == (self.cache.bytes(), self.slot.numbers())
                && (form, run) == (self.room(), [RUN; 4])
        })
    }

    // 10: a number too few. 9 takes the wheel, which tests/stores runs.
    fn store_is_full(&self) -> bool {
        let (automaton, mut store) = (self.automaton.bytes(), self.slot.numbers());
        store.pop();
        store.fill(NUMBER);
        let mut run = [RUN; 4];
        search(&automaton, &mut store) == Err(10)
            && write_run(&automaton, &mut store, &mut run) == Err(10)
            && store.iter().all(|x| *x == NUMBER)
            && run == [RUN; 4]
    }

    // 11: another version.
    fn cache_is_bad(&self) -> bool {
        let (mut cache, automaton) = (self.cache.bytes(), self.automaton.bytes());
        cache[4] = 2;
        let before = cache.clone();
        sound(&cache) == 11
            && look_up(&cache, &automaton, &mut self.room()) == Err(11)
            && consult(&mut cache, &automaton, &mut self.room(), &mut []) == Err(11)
            && cache == before
    }

    // 12: a byte too few, for the record and for the header.
    fn cache_is_full(&self) -> bool {
        let mut cache = vec![BYTE; self.cache.bytes().len() - 1];
        let empty = make_empty(&mut cache);
        let before = cache.clone();
        let (automaton, mut form) = (self.automaton.bytes(), self.room());
        let mut store = vec![NUMBER; self.slot.numbers().len()];
        let reply = consult(&mut cache, &automaton, &mut form, &mut store);
        let mut short = [BYTE; 4];
        empty == 0
            && reply == Err(12)
            && cache == before
            && make_empty(&mut short) == 12
            && short == [BYTE; 4]
    }

    // 13: a byte too few for the form.
    fn form_is_too_long(&self) -> bool {
        let (mut cache, automaton) = (self.cache.bytes(), self.automaton.bytes());
        let mut form = self.room();
        form.pop();
        let before = form.clone();
        canonical(&automaton, &mut form) == Err(13)
            && look_up(&cache, &automaton, &mut form) == Err(13)
            && consult(&mut cache, &automaton, &mut form, &mut []) == Err(13)
            && (cache, form) == (self.cache.bytes(), before)
    }
}

type Check = (&'static str, fn(&Format) -> bool);

const CHECKS: [Check; 29] = [
    ("the tables add up", Format::tables_add_up),
    ("the ranges of lengths", Format::lengths_are_ranged),
    ("the versions", Format::versions_are_said),
    ("the dumps' offsets and lengths", Format::dumps_are_counted),
    ("the dumps' annotations", Format::dumps_are_annotated),
    ("the lengths in the text", Format::lengths_are_said),
    (
        "the fields stand in the dumps where the tables say",
        Format::fields_stand,
    ),
    ("the automaton is the example file", Format::is_example),
    (
        "the automaton's search leaves the slot",
        Format::is_searched,
    ),
    (
        "consulting an empty cache leaves the cache",
        Format::is_filed,
    ),
    ("the cache without a byte to spare", Format::fits_exactly),
    (
        "the cache is sound, and the automaton is found in it",
        Format::is_found,
    ),
    (
        "consulting the cache changes nothing",
        Format::is_consulted_again,
    ),
    ("the automaton is its own form", Format::is_canonical),
    ("edges are turned round", Format::edges_are_turned),
    ("an edge twice is there once", Format::repeats_are_dropped),
    ("no record has an edge twice", Format::repeats_are_unsound),
    ("the ranges of counts", Format::counts_are_ranged),
    ("the ranges of limits", Format::limits_are_ranged),
    ("the refusals are 1 to 14", Format::refusals_are_listed),
    ("refusals 1 to 8", Format::automata_are_refused),
    ("refusal 10", Format::store_is_full),
    ("refusal 11", Format::cache_is_bad),
    ("refusal 12", Format::cache_is_full),
    ("refusal 13", Format::form_is_too_long),
    ("the run passes", Format::run_is_judged),
    ("the run is written", Format::run_is_written),
    ("no run is written", Format::no_run_is_written),
    ("refusal 14", Format::run_is_too_long),
];

fn main() -> ExitCode {
    let mut arguments = std::env::args().skip(1);
    let mut file =
        || std::fs::read(arguments.next().expect("the document and an example")).expect("a file");
    let text = String::from_utf8(file()).expect("text");
    let marks = ["automaton", "slot", "run", "cache"];
    let [automaton, slot, run, cache] = marks.map(|mark| dump(&text, mark));
    let format = Format {
        text,
        example: file(),
        automaton,
        slot,
        run,
        cache,
    };
    let mut checks = Checks::default();
    for (name, check) in CHECKS {
        checks.check(check(&format), || name.into());
    }
    checks.sum_up()
}
