//! Every way in which a cache can be unsound, singly, and what is sound just beside it.

use crate::automata;
use crate::calls::{random_bytes, Call, Lent};
use crate::drawn::Dice;
use crate::forms;
use crate::oracle::{Cache, Record, Verdict};
use crate::table::{named, with_byte};
use crate::tally::Tally;

const MOST: u32 = u32::MAX;

/// The bytes of a cache with what documents 01 and 02 make of them.
struct Case {
    what: String,
    cache: Vec<u8>,
    sound: bool,
}

fn case(what: String, cache: Vec<u8>, sound: bool) -> Case {
    Case { what, cache, sound }
}

pub fn record(automaton: &[u8], kind: u8, n: u32, d: u32, zones: u32) -> Record {
    Record {
        verdict: Verdict { kind, n, d, zones },
        automaton: automaton.to_vec(),
    }
}

/// A sound cache. That some verdicts aren't the search's, nor K's that of any search, is no matter.
fn base() -> Cache {
    let records = vec![
        record(&named("A"), 1, 1, 1, 1),
        record(&named("B"), 0, 0, 0, 1),
        record(&named("D"), 1, 1, 0, 1),
        record(&named("K"), 1, 7, 3, 12),
        record(&named("G"), 1, 3, 1, 1),
        record(&named("smallest"), 0, 0, 0, 99),
        record(&named("C"), 1, 2, 5, 0),
    ];
    Cache { records }
}

/// Where each record begins, and last where the used part ends.
fn borders(cache: &Cache) -> Vec<usize> {
    let mut at = vec![5];
    for record in &cache.records {
        at.push(at[at.len() - 1] + record.length());
    }
    at
}

pub fn put(bytes: &mut [u8], at: usize, number: u32) {
    bytes[at..at + 4].copy_from_slice(&number.to_be_bytes());
}

fn with_number(bytes: &[u8], at: usize, number: u32) -> Vec<u8> {
    let mut changed = bytes.to_vec();
    put(&mut changed, at, number);
    changed
}

/// Kind, n and d, and whether a record may have them.
pub const VERDICTS: [(u8, u32, u32, bool); 36] = [
    (0, 0, 0, true),
    (0, 1, 0, false),
    (0, 0, 1, false),
    (0, 1, 1, false),
    (0, 1 << 24, 0, false),
    (0, 0, 1 << 24, false),
    (0, MOST, MOST, false),
    (1, 0, 0, false),
    (1, 0, 1, false),
    (1, 0, 5, false),
    (1, 0, MOST, false),
    (1, 1, 0, true),
    (1, 2, 0, false),
    (1, MOST, 0, false),
    (1, 1 << 24, 0, false),
    (1, 1, 1, true),
    (1, 2, 2, false),
    (1, MOST, MOST, false),
    (1, 2, 4, false),
    (1, 4, 2, false),
    (1, 6, 9, false),
    (1, 8, 9, true),
    // Only a large prime is common to both.
    (1, 3 * 65_537, 5 * 65_537, false),
    (1, 4_294_967_291, 4_294_967_291, false),
    (1, MOST, 3, false),
    (1, MOST, 2, true),
    (1, 1 << 31, 6, false),
    (1, 1 << 31, MOST, true),
    (1, MOST, MOST - 1, true),
    (1, MOST - 1, MOST, true),
    (1, 1, MOST, true),
    (1, MOST, 1, true),
    // Fibonacci's numbers: Euclid's rule takes more steps at no other pair of four bytes each.
    (1, 2_971_215_073, 1_836_311_903, true),
    (2, 0, 0, false),
    (2, 1, 1, false),
    (255, 1, 1, false),
];

fn verdicts(tally: &mut Tally, dice: &mut Dice) {
    let base = base();
    for k in 0..base.records.len() {
        for (turn, (kind, n, d, lawful)) in VERDICTS.into_iter().enumerate() {
            let zones = [0, 1, 1 << 24, MOST][turn % 4];
            let mut changed = base.clone();
            changed.records[k].verdict = Verdict { kind, n, d, zones };
            let what = format!("record {} with {} {}/{} zones {}", k, kind, n, d, zones);
            let case = case(what, changed.bytes(), lawful);
            judge(tally, dice, &case);
            if lawful {
                let filed = &base.records[k].automaton;
                let lent = Lent::new(dice, &case.cache, filed, 0);
                let after = tally.must(&case.what, Call::LookUp, &lent, 0).lent;
                let numbers = [kind.into(), n, d, zones].map(u64::from);
                let right = (after.filed, after.verdict()) == (1, numbers);
                tally.check(right, || case.what.clone());
            }
        }
    }
}

fn record_lengths(tally: &mut Tally, dice: &mut Dice) {
    let base = base();
    let (bytes, at) = (base.bytes(), borders(&base));
    let used = bytes.len();
    // Past the used part there is what could be taken for the rest of a record.
    let lent = [&bytes[..], &bytes[5..]].concat();
    for (k, record) in base.records.iter().enumerate() {
        let right = record.length();
        let next = at.get(k + 2).map(|&end| end - at[k]);
        let small = [0, 1, 3, 4, 5, 16, 17, 27, right - 17, right - 1];
        let large = [
            right + 1,
            used - at[k] + 1,
            lent.len() - at[k],
            lent.len() - at[k] + 1,
        ];
        let high = [
            right | 1 << 16,
            right | 1 << 24,
            right | 1 << 31,
            MOST as usize,
        ];
        for wrong in small.into_iter().chain(large).chain(high).chain(next) {
            let what = format!("record {} of {} bytes says {}", k, right, wrong);
            let cache = with_number(&lent, at[k], wrong as u32);
            judge(tally, dice, &case(what, cache, false));
        }
    }
}

fn headers(tally: &mut Tally, dice: &mut Dice) {
    let bytes = base().bytes();
    let used = bytes.len() as u32;
    let lent = [&bytes[..], &random_bytes(dice, 70)].concat();
    let all = lent.len() as u32;
    let low = [0, 1, 4, 6, 21, 22, used - 1];
    let high = [
        used + 1,
        used + 16,
        all,
        all + 1,
        used | 1 << 16,
        used | 1 << 24,
        MOST,
    ];
    for number in low.into_iter().chain(high) {
        let what = format!("used length {} of {}", number, used);
        let cache = with_number(&lent, 0, number);
        judge(tally, dice, &case(what, cache, false));
    }
    for version in 0..=255 {
        let what = format!("version {}", version);
        let cache = with_byte(&lent, 4, version);
        judge(tally, dice, &case(what, cache, version == 1));
    }
    judge(tally, dice, &case("no tail".into(), bytes, true));
    judge(tally, dice, &case("a tail".into(), lent, true));
    for tail in [0, 1, 17, 54, 55, 90] {
        let tail = random_bytes(dice, tail);
        let cache = [&Cache::default().bytes()[..], &tail].concat();
        judge(tally, dice, &case("no records".into(), cache, true));
    }
}

/// A record with an automaton that is turned down, the lengths around it being right.
fn refused_automata(tally: &mut Tally, dice: &mut Dice) {
    let base = base();
    for (number, automaton) in automata::refused() {
        for k in 0..base.records.len() {
            let mut changed = base.clone();
            changed.records[k].automaton = automaton.clone();
            let what = format!("record {} with an automaton refused by {}", k, number);
            judge(tally, dice, &case(what, changed.bytes(), false));
        }
    }
}

/// A record's automaton again, with the same verdict and with others; and, soundly, another one
/// that is like it but for its last limit.
fn repeats(own: &Record) -> Vec<(Record, bool)> {
    let automaton = &own.automaton;
    let last = automaton.len() - 1;
    // No upper limit, FFFFFFFF, has no neighbour that is one; the lower limit before it has.
    let at = if automaton[last] == 255 {
        last - 4
    } else {
        last
    };
    let near = with_byte(automaton, at, automaton[at] ^ 4);
    let Verdict { kind, n, d, zones } = own.verdict;
    vec![
        (own.clone(), false),
        (record(automaton, 0, 0, 0, 1), false),
        (record(automaton, 1, 5, 4, 1), false),
        (record(automaton, kind, n, d, zones + 1), false),
        (record(&near, kind, n, d, zones), true),
    ]
}

/// Any record a second time, at any place.
fn twice(tally: &mut Tally, dice: &mut Dice) {
    let base = base();
    let count = base.records.len();
    for (k, to) in (0..count).flat_map(|k| (0..=count).map(move |to| (k, to))) {
        for (turn, (other, sound)) in repeats(&base.records[k]).into_iter().enumerate() {
            let mut changed = base.clone();
            changed.records.insert(to, other);
            let what = format!("record {} again at {}, variant {}", k, to, turn);
            judge(tally, dice, &case(what, changed.bytes(), sound));
        }
    }
}

/// All calls on a case, for what is filed first and last, and for what isn't there.
fn judge(tally: &mut Tally, dice: &mut Dice, case: &Case) {
    let reply = if case.sound { 0 } else { 11 };
    let lent =
        |dice: &mut Dice, automaton: &str| Lent::new(dice, &case.cache, &named(automaton), 20);
    for automaton in ["A", "C", "K", "F"] {
        let before = lent(dice, automaton);
        tally.must(&case.what, Call::LookUp, &before, reply);
        let left = tally.call(&case.what, Call::Consult, &before);
        // What it replies on a sound cache goes with what is filed and with the room.
        tally.check((left.reply == 11) != case.sound, || case.what.clone());
    }
    let before = lent(dice, "A");
    tally.must(&case.what, Call::Sound, &before, reply);
}

pub fn singly(tally: &mut Tally) {
    let mut dice = Dice::new(41);
    verdicts(tally, &mut dice);
    record_lengths(tally, &mut dice);
    headers(tally, &mut dice);
    refused_automata(tally, &mut dice);
    twice(tally, &mut dice);
}

/// Pairs of so many edges: of few all; of many neighbours, and those as far from either end, the
/// first and the last among them.
fn pairs(count: usize) -> Vec<(usize, usize)> {
    let any = (0..count).flat_map(|j| (0..j).map(move |i| (i, j)));
    any.filter(|(i, j)| count <= 20 || i + 1 == *j || i + j + 1 == count)
        .collect()
}

/// Exchanges of two edges of a form, and every edge doubled, where it stands and behind the others.
/// The lengths around them are put right.
pub fn disorders(form: &[u8]) -> Vec<Vec<u8>> {
    let (head, edges) = forms::parts(form);
    let mut all = Vec::new();
    for (i, j) in pairs(edges.len()) {
        let mut exchanged = edges.clone();
        exchanged.swap(i, j);
        all.push(exchanged);
    }
    for (k, edge) in edges.iter().enumerate() {
        for to in [k, edges.len()] {
            let mut doubled = edges.clone();
            doubled.insert(to, edge);
            all.push(doubled);
        }
    }
    all.iter().map(|edges| forms::joined(head, edges)).collect()
}

/// Forms whose edges differ in any of their fields, of one edge up to as many as there can be.
fn forms_of_edges() -> Vec<Vec<u8>> {
    let mut all = vec![named("A"), named("K"), automata::rising(1, 2, 2)];
    for place in [0, 1, 6, 10] {
        all.push(automata::rising(1, 64, place));
    }
    for place in [2, 6, 66] {
        all.push(automata::rising(8, 20, place));
    }
    all.push(automata::rising(1, 255, 6));
    all.push(automata::rising(1, 256, 10));
    all
}

/// A record whose edges do not rise, for every operation, beside the same with its form.
pub fn out_of_order(tally: &mut Tally) {
    let mut dice = Dice::new(151);
    for (turn, form) in forms_of_edges().into_iter().enumerate() {
        let mut cache = base();
        cache.records.retain(|r| r.automaton != form);
        let at = turn % (cache.records.len() + 1);
        cache.records.insert(at, record(&form, 1, 3, 2, 5));
        let what = format!("form {} as record {}", turn, at);
        judge(tally, &mut dice, &case(what, cache.bytes(), true));
        for (variant, automaton) in disorders(&form).into_iter().enumerate() {
            let what = format!("form {} as record {}, disorder {}", turn, at, variant);
            cache.records[at].automaton = automaton.clone();
            let case = case(what, cache.bytes(), false);
            judge(tally, &mut dice, &case);
            let before = Lent::new(&mut dice, &case.cache, &form, 0);
            tally.must(&case.what, Call::LookUp, &before, 11);
            tally.must(&case.what, Call::Consult, &before, 11);
            // Where one edge more is one too many, it is turned down as drawn.
            let drawn = Lent::new(&mut dice, &case.cache, &automaton, 0);
            let reply = if automaton[9..11] == [1, 1] { 4 } else { 11 };
            tally.must(&case.what, Call::LookUp, &drawn, reply);
            tally.must(&case.what, Call::Consult, &drawn, reply);
        }
    }
}

/// A cache cut at every byte, with its used length and with that of the cut, and every used length
/// up to three bytes more than all: sound only at the borders of records.
pub fn cut(tally: &mut Tally) {
    let mut dice = Dice::new(51);
    let mut base = base();
    base.records.truncate(4);
    let (bytes, at) = (base.bytes(), borders(&base));
    let lent = [&bytes[..], &[0; 40]].concat();
    for length in 0..=bytes.len() {
        let whole = length == bytes.len();
        let what = format!("cut to {} of {}", length, bytes.len());
        judge(
            tally,
            &mut dice,
            &case(what, bytes[..length].to_vec(), whole),
        );
        if length >= 4 {
            let what = format!("cut to {} and so counted", length);
            let cut = with_number(&bytes[..length], 0, length as u32);
            judge(tally, &mut dice, &case(what, cut, at.contains(&length)));
        }
    }
    for used in 0..=bytes.len() + 3 {
        let what = format!("used length {} of {}", used, bytes.len());
        let sound = at.contains(&used);
        let full = with_number(&bytes, 0, used as u32);
        judge(tally, &mut dice, &case(what.clone(), full, sound));
        let tail = with_number(&lent, 0, used as u32);
        judge(tally, &mut dice, &case(what + " and a tail", tail, sound));
    }
}

/// Every byte of a short cache with every other value. Some undo the order of the last automaton's
/// edges and nothing else.
pub fn every_byte(tally: &mut Tally) {
    let mut dice = Dice::new(61);
    let mut base = base();
    base.records.drain(4..);
    let bytes = [&base.bytes()[..], &[0; 60]].concat();
    for at in 0..base.length() {
        for change in 1..=255 {
            let what = format!("byte {} xor {}", at, change);
            let changed = with_byte(&bytes, at, bytes[at] ^ change);
            let filed = &base.records[usize::from(change) % 4].automaton;
            let before = Lent::new(&mut dice, &changed, filed, 9);
            tally.call(&what, Call::Sound, &before);
            let call = [Call::LookUp, Call::Consult][at % 2];
            tally.call(&what, call, &before);
        }
    }
}
