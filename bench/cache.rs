// Times the cache of the proved crate exports, document 01's shelf, beside the same work in plain
// Rust. Both must give the same replies, caches and stores; a ratio fails nothing.

#[path = "../tests/draft.rs"]
mod draft;
mod draws;
mod families;
mod filed;
#[path = "../tests/lengths.rs"]
mod lengths;
#[path = "../tests/library.rs"]
mod library;
mod literal;
mod ordered;
mod plain;
mod times;

use draws::Draws;
use families::{any, family, small, Shape, Shared, FEW, LARGEST, MEMBERS, SMALLEST};
use filed::record;
use literal::{gcd, Verdict};
use ordered::arranged;
use times::{best, nanoseconds, opaque};

const SEED: u64 = 340;
// The program's store.
const STORE: usize = 16_384;
// Behind the records: room for the one that is filed, and some bytes that stand.
const FREE: usize = 100;
// What free bytes and store have before, to see that the rest of them stands.
const UNTOUCHED: u8 = 0xA5;
const UNUSED: i32 = -7;
// The longest form.
const LONGEST: usize = 21_259;
// Document 01's card A, whose search is short. Limits that are drawn are larger, so it is in no
// cache.
const ABSENT: &[u8] = include_bytes!("../examples/A.card");

// ---- caches
struct Cache {
    automata: Vec<Vec<u8>>,
    bytes: Vec<u8>,
}

// Soundness asks only that a verdict is in lowest terms, not that it is the search's.
fn verdict(draws: &mut Draws) -> Verdict {
    let zones = draws.below(1 << 16) as u64;
    let n = 1 + draws.below(1_000_000) as u64;
    let d = 1 + draws.below(1_000) as u64;
    match draws.below(8) {
        0 => [0, 0, 0, zones],
        1 => [1, 1, 0, zones],
        _ => [1, n / gcd(n, d), d / gcd(n, d), zones],
    }
}

fn cache(draws: &mut Draws, automata: Vec<Vec<u8>>) -> Cache {
    let mut bytes = vec![0; 5];
    assert_eq!(library::make_empty(&mut bytes), 0, "an empty cache");
    automata
        .iter()
        .for_each(|a| bytes.extend(record(verdict(draws), a)));
    let used = bytes.len() as u32;
    bytes[..4].copy_from_slice(&used.to_be_bytes());
    bytes.resize(bytes.len() + FREE, UNTOUCHED);
    assert_eq!(library::sound(&bytes), 0, "the cache is sound");
    Cache { automata, bytes }
}

fn families(draws: &mut Draws, shapes: &[Shape], shared: Shared) -> Cache {
    let members = shapes.iter().flat_map(|s| family(draws, s, shared));
    let automata = members.collect();
    cache(draws, automata)
}

// 340 automata, the smallest and the largest possible among them.
fn varied(shared: Shared) -> Cache {
    let draws = &mut Draws(SEED);
    let mut shapes = vec![SMALLEST, LARGEST];
    shapes.resize_with(340 / MEMBERS, || any(draws));
    families(draws, &shapes, shared)
}

fn of_small(records: usize) -> Cache {
    let draws = &mut Draws(SEED);
    let mut shapes = vec![];
    shapes.resize_with(records / MEMBERS, || small(draws));
    families(draws, &shapes, Shared::Beginnings)
}

// ---- the two sides
type LookUp = fn(&[u8], &[u8], &mut [u8]) -> Result<Option<Verdict>, u32>;
type Consult = fn(&mut [u8], &[u8], &mut [u8], &mut [i32]) -> Result<Verdict, u32>;

// Ours, Rust's, and Rust's without a list of the records.
const LOOKUPS: [LookUp; 3] = [library::look_up, filed::look_up, filed::look_up_walking];

// What a lookup replies and leaves.
fn found(look_up: LookUp, bytes: &[u8], automaton: &[u8]) -> impl PartialEq {
    let mut form = vec![UNTOUCHED; LONGEST];
    (look_up(bytes, automaton, &mut form), form)
}

// What consulting replies and leaves.
fn left(consult: Consult, bytes: &[u8], automaton: &[u8]) -> impl PartialEq {
    let (mut cache, mut store) = (bytes.to_vec(), vec![UNUSED; STORE]);
    let mut form = vec![UNTOUCHED; LONGEST];
    let reply = consult(&mut cache, automaton, &mut form, &mut store);
    (reply, cache, form, store)
}

fn agree(bytes: &[u8], automaton: &[u8]) {
    assert_eq!(library::sound(bytes), filed::sound(bytes), "soundness");
    let [ours, rust, walking] = LOOKUPS.map(|side| found(side, bytes, automaton));
    assert!(ours == rust, "reply or form of a lookup");
    assert!(ours == walking, "reply or form of a lookup without a list");
    let ours = left(library::consult, bytes, automaton);
    let rust = left(filed::consult, bytes, automaton);
    assert!(ours == rust, "reply, cache, form or store of consulting");
}

// Every beginning, and every byte changed in some ways.
fn edits(bytes: &[u8]) -> Vec<Vec<u8>> {
    let mut edits: Vec<_> = (0..=bytes.len())
        .map(|length| bytes[..length].to_vec())
        .collect();
    for at in 0..bytes.len() {
        for change in [1, 2, 16, 255] {
            let mut edit = bytes.to_vec();
            edit[at] ^= change;
            edits.push(edit);
        }
    }
    edits
}

// They agree also on caches and automata that are turned down, on two records that become the same,
// and on edges that come out of order.
fn agree_on_edits() {
    let draws = &mut Draws(SEED);
    for (shape, records) in [(SMALLEST, 0), (SMALLEST, 3), (FEW, 3)] {
        let automata = family(draws, &shape, Shared::Beginnings);
        let Cache { bytes, .. } = cache(draws, automata[..records].to_vec());
        for edit in edits(&bytes) {
            agree(&edit, &automata[0]);
            agree(&edit, ABSENT);
        }
        for edit in [edits(ABSENT), edits(&automata[0])].concat() {
            agree(&bytes, &edit);
            agree(&[], &edit);
        }
    }
}

// ---- times
fn microseconds<T>(f: impl FnOnce() -> T) -> f64 {
    nanoseconds(f) / 1e3
}

fn looked_up(times: u32, bytes: &[u8], automaton: &[u8]) -> [f64; 3] {
    agree(bytes, automaton);
    let mut form = vec![UNTOUCHED; LONGEST];
    best(times, |i| {
        microseconds(|| LOOKUPS[i](opaque(bytes), opaque(automaton), &mut form))
    })
}

fn consulted(times: u32, bytes: &[u8], automaton: &[u8]) -> [f64; 2] {
    const SIDES: [Consult; 2] = [library::consult, filed::consult];
    agree(bytes, automaton);
    let (mut cache, mut store) = (bytes.to_vec(), vec![UNUSED; STORE]);
    let mut form = vec![UNTOUCHED; LONGEST];
    best(times, |i| {
        cache.copy_from_slice(bytes);
        microseconds(|| SIDES[i](opaque(&mut cache), opaque(automaton), &mut form, &mut store))
    })
}

// ---- tables
fn mean(automata: &[Vec<u8>]) -> usize {
    automata.iter().map(Vec::len).sum::<usize>() / automata.len()
}

fn line(asked: &str, ours: f64, rust: f64) {
    println!("{asked:12} {ours:10.1} {rust:10.1} {:6.2}", ours / rust);
}

fn ask(alike: &str, shared: Shared) {
    let Cache { automata, bytes } = varied(shared);
    let sizes = || automata.iter().map(Vec::len);
    let (least, most) = (sizes().min().unwrap(), sizes().max().unwrap());
    let (records, mean) = (automata.len(), mean(&automata));
    println!("{records} automata of {least} to {most} bytes, mean {mean}, alike in their {alike}");
    println!("asked         us Rattle    us Rust  ratio");
    let hits = [
        ("hit, first", 0),
        ("hit, middle", records / 2),
        ("hit, last", records - 1),
    ];
    for (asked, at) in hits {
        let [ours, rust] = consulted(40, &bytes, &automata[at]);
        line(asked, ours, rust);
    }
    let largest = &automata[MEMBERS];
    let drawn = arranged(largest, |edges| Draws(SEED).shuffle(edges));
    for (asked, automaton) in [("hit, largest", largest), ("hit, drawn", &drawn)] {
        let [ours, rust] = consulted(40, &bytes, automaton);
        line(asked, ours, rust);
    }
    let [ours, rust, _] = looked_up(40, &bytes, ABSENT);
    line("miss, lookup", ours, rust);
    let [ours, rust] = consulted(40, &bytes, ABSENT);
    line("miss, filed", ours, rust);
}

fn grow(records: usize, times: u32) {
    let Cache { automata, bytes } = of_small(records);
    let [ours, rust, walking] = looked_up(times, &bytes, ABSENT);
    let (mean, ratio) = (mean(&automata), ours / rust);
    print!("{records:7}  {mean:10} {ours:10.0} {rust:10.0} {ratio:6.2}");
    println!(" {walking:11.0} {:6.2}", ours / walking);
}

fn main() {
    agree_on_edits();
    ask("beginnings", Shared::Beginnings);
    ask("ends", Shared::Ends);
    println!("records  mean bytes  us Rattle    us Rust  ratio  us walking  ratio");
    grow(340, 40);
    grow(1_000, 20);
    grow(10_000, 5);
}
