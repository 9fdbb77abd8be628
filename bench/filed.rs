// Document 01's shelf with document 02's one order of edges in plain Rust, step for step: at each
// asking the automaton's canonical form, then whether the cache is sound, then the lookup, then the
// search and its record.
use crate::lengths::slot;
use crate::literal::{gcd, Search, Verdict};
use crate::ordered;

const HEADER: usize = 5;
const HEAD: usize = 17;
const SCALE: u32 = 1_000_000;
const NO_UPPER: u32 = u32::MAX;
const MOST_SLOTS: usize = 2_147_483_647;
// What four bytes can say.
const LONGEST: usize = 4_294_967_295;

fn number(bytes: &[u8], at: usize) -> u32 {
    u32::from_be_bytes(bytes[at..at + 4].try_into().unwrap())
}

// Of an automaton, the smallest of 1 to 8 that applies, or 0.
fn refusal(a: &[u8]) -> u32 {
    if a.len() < 11 {
        return 1;
    }
    let (n, m, edges) = (
        a[5] as usize,
        a[6] as usize,
        u16::from_be_bytes([a[9], a[10]]) as usize,
    );
    if number(a, 0) as usize != a.len() {
        2
    } else if a[4] != 1 {
        3
    } else if !(1..=8).contains(&n) || !(1..=64).contains(&m) || 256 < edges {
        4
    } else if 11 + 8 * n * m + edges * (3 + 8 * n) != a.len() {
        5
    } else {
        misplaced(a, n, m)
    }
}

fn misplaced(a: &[u8], n: usize, m: usize) -> u32 {
    let (invariants, edges) = a[11..].split_at(8 * n * m);
    let outside = |x: u8, y: u8| m <= x.max(y) as usize;
    let mut each = edges.chunks_exact(3 + 8 * n);
    if outside(a[7], a[8]) || each.clone().any(|e| outside(e[0], e[1])) {
        6
    } else if each.clone().any(|e| e[2] as u32 >> n != 0) {
        7
    } else if out_of_range(invariants, SCALE) || each.any(|e| out_of_range(&e[3..], NO_UPPER)) {
        8
    } else {
        0
    }
}

// The other value is one that a hi may have beside those on the scale.
fn out_of_range(limits: &[u8], other: u32) -> bool {
    let off = |l: &[u8]| SCALE < number(l, 0) || (SCALE < number(l, 4) && number(l, 4) != other);
    limits.chunks_exact(8).any(off)
}

// The records that bytes begin with, one after another; what is left begins with none.
#[derive(Clone)]
struct Records<'a>(&'a [u8]);

impl<'a> Iterator for Records<'a> {
    type Item = &'a [u8];

    fn next(&mut self) -> Option<&'a [u8]> {
        if self.0.len() < HEAD {
            return None;
        }
        let length = number(self.0, 0) as usize;
        if length < HEAD || self.0.len() < length {
            return None;
        }
        let (record, rest) = self.0.split_at(length);
        self.0 = rest;
        Some(record)
    }
}

fn verdict(record: &[u8]) -> Verdict {
    let at = |place| number(record, place) as u64;
    [record[4] as u64, at(5), at(9), at(13)]
}

fn is_sound(record: &[u8]) -> bool {
    let terms = match verdict(record) {
        [0, n, d, _] => n == 0 && d == 0,
        [1, n, d, _] => 0 < n && gcd(n, d) == 1,
        _ => false,
    };
    terms && refusal(&record[HEAD..]) == 0 && ordered::rises(&record[HEAD..])
}

// How to find that no automaton stands twice: each is compared with all later ones, listed first or
// where they lie.
type Distinct = fn(Records) -> bool;

fn listed(records: Records) -> bool {
    let automata: Vec<&[u8]> = records.map(|r| &r[HEAD..]).collect();
    automata
        .iter()
        .enumerate()
        .all(|(i, a)| !automata[i + 1..].contains(a))
}

fn walked(mut records: Records) -> bool {
    while let Some(r) = records.next() {
        if records.clone().any(|later| later[HEAD..] == r[HEAD..]) {
            return false;
        }
    }
    true
}

// The records of a cache, if it is sound.
fn records(cache: &[u8], distinct: Distinct) -> Option<Records<'_>> {
    if cache.len() < HEADER {
        return None;
    }
    let used = number(cache, 0) as usize;
    if used < HEADER || cache.len() < used || cache[4] != 1 {
        return None;
    }
    let records = Records(&cache[HEADER..used]);
    let mut left = records.clone();
    let filled = left.by_ref().all(is_sound) && left.0.is_empty();
    (filled && distinct(records.clone())).then_some(records)
}

pub fn sound(cache: &[u8]) -> u32 {
    records(cache, listed).map_or(11, |_| 0)
}

// The length of the canonical form that was written, or a refusal.
pub fn canonical(automaton: &[u8], form: &mut [u8]) -> Result<usize, u32> {
    match refusal(automaton) {
        0 => ordered::write(automaton, form).ok_or(13),
        number => Err(number),
    }
}

fn find(cache: &[u8], form: &[u8], distinct: Distinct) -> Result<Option<Verdict>, u32> {
    let mut records = records(cache, distinct).ok_or(11u32)?;
    Ok(records.find(|r| r[HEAD..] == *form).map(verdict))
}

// The verdict filed, or none, or a refusal.
pub fn look_up(cache: &[u8], automaton: &[u8], form: &mut [u8]) -> Result<Option<Verdict>, u32> {
    let length = canonical(automaton, form)?;
    find(cache, &form[..length], listed)
}

// The same without a list of the records.
pub fn look_up_walking(
    cache: &[u8],
    automaton: &[u8],
    form: &mut [u8],
) -> Result<Option<Verdict>, u32> {
    let length = canonical(automaton, form)?;
    find(cache, &form[..length], walked)
}

pub fn consult(
    cache: &mut [u8],
    automaton: &[u8],
    form: &mut [u8],
    store: &mut [i32],
) -> Result<Verdict, u32> {
    let length = canonical(automaton, form)?;
    let form = &form[..length];
    if let Some(verdict) = find(cache, form, listed)? {
        return Ok(verdict);
    }
    let used = number(cache, 0) as usize;
    let end = used + HEAD + length;
    if cache.len() < end || LONGEST < end {
        return Err(12);
    }
    let search = Search::of(form, (store.len() / slot(form)).min(MOST_SLOTS));
    search.store(store);
    let verdict = search.answer()?;
    cache[used..end].copy_from_slice(&record(verdict, form));
    cache[..4].copy_from_slice(&(end as u32).to_be_bytes());
    Ok(verdict)
}

pub fn record([kind, n, d, zones]: Verdict, form: &[u8]) -> Vec<u8> {
    let mut record = ((HEAD + form.len()) as u32).to_be_bytes().to_vec();
    record.push(kind as u8);
    [n, d, zones]
        .iter()
        .for_each(|x| record.extend((*x as u32).to_be_bytes()));
    record.extend(form);
    record
}
