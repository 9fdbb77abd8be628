//! A second cache, document 01's shelf with document 02's one order of edges, written from these
//! documents alone, to hold the proved one against. It copies every record out; to file a verdict
//! it writes the whole used part anew.

use crate::forms;
use crate::search::{self, Outcome};
use std::collections::BTreeSet;

const BAD: u32 = 11;
const FULL: u32 = 12;
const SHORT: u32 = 13;
const VERSION: u8 = 1;
const HEADER: usize = 5;

#[derive(Clone, Copy, PartialEq, Eq, Debug)]
pub struct Verdict {
    pub kind: u8,
    pub n: u32,
    pub d: u32,
    pub zones: u32,
}

/// What a search tells beside a verdict, and no record has: n and d of the exact fraction, again and inside.
pub type Beside = [u64; 4];

#[derive(Clone)]
pub struct Record {
    pub verdict: Verdict,
    pub automaton: Vec<u8>,
}

#[derive(Clone, Default)]
pub struct Cache {
    pub records: Vec<Record>,
}

/// The next bytes of what is left, unless it is too short.
fn take<'a>(left: &mut &'a [u8], count: usize) -> Option<&'a [u8]> {
    let first = left.get(..count)?;
    *left = &left[count..];
    Some(first)
}

fn number(left: &mut &[u8]) -> Option<u32> {
    let bytes = take(left, 4)?;
    Some(bytes.iter().fold(0, |n, &b| n << 8 | u32::from(b)))
}

fn common(a: u32, b: u32) -> u32 {
    if b == 0 {
        a
    } else {
        common(b, a % b)
    }
}

impl Verdict {
    fn lawful(&self) -> bool {
        match self.kind {
            0 => self.n == 0 && self.d == 0,
            1 => self.n >= 1 && (self.d > 0 || self.n == 1) && common(self.n, self.d) == 1,
            _ => false,
        }
    }

    fn of([kind, n, d, zones]: [u64; 4]) -> Verdict {
        let four = |number: u64| u32::try_from(number).expect("a verdict's number has four bytes");
        Verdict {
            kind: kind as u8,
            n: four(n),
            d: four(d),
            zones: four(zones),
        }
    }
}

impl Record {
    /// The record that begins here, be it lawful or not.
    fn read(left: &mut &[u8]) -> Option<Record> {
        let length = number(left)? as usize;
        let mut body = take(left, length.checked_sub(4)?)?;
        let verdict = Verdict {
            kind: take(&mut body, 1)?[0],
            n: number(&mut body)?,
            d: number(&mut body)?,
            zones: number(&mut body)?,
        };
        Some(Record {
            verdict,
            automaton: body.to_vec(),
        })
    }

    pub fn length(&self) -> usize {
        17 + self.automaton.len()
    }

    fn bytes(&self) -> Vec<u8> {
        let mut bytes = (self.length() as u32).to_be_bytes().to_vec();
        bytes.push(self.verdict.kind);
        for number in [self.verdict.n, self.verdict.d, self.verdict.zones] {
            bytes.extend(number.to_be_bytes());
        }
        bytes.extend(&self.automaton);
        bytes
    }
}

impl Cache {
    /// None is an unsound cache.
    fn read(lent: &[u8]) -> Option<Cache> {
        let used = number(&mut &lent[..])? as usize;
        let mut left = lent.get(..used)?;
        if take(&mut left, HEADER)?[4] != VERSION {
            return None;
        }
        let mut cache = Cache::default();
        while !left.is_empty() {
            cache.records.push(Record::read(&mut left)?);
        }
        if cache.lawful() {
            Some(cache)
        } else {
            None
        }
    }

    fn lawful(&self) -> bool {
        let automata: BTreeSet<&[u8]> = self.records.iter().map(|r| &r.automaton[..]).collect();
        automata.len() == self.records.len()
            && automata.iter().all(|a| is_canonical(a))
            && self.records.iter().all(|r| r.verdict.lawful())
    }

    fn filed(&self, form: &[u8]) -> Option<Verdict> {
        let record = self.records.iter().find(|r| r.automaton == form)?;
        Some(record.verdict)
    }

    pub fn length(&self) -> usize {
        HEADER + self.records.iter().map(Record::length).sum::<usize>()
    }

    /// The used part. Nothing asks here whether the records are lawful.
    pub fn bytes(&self) -> Vec<u8> {
        let used = u32::try_from(self.length()).expect("a used length has four bytes");
        let mut bytes = used.to_be_bytes().to_vec();
        bytes.push(VERSION);
        bytes.extend(self.records.iter().flat_map(Record::bytes));
        bytes
    }
}

/// Refusals 1 to 8. The search judges them first, and without a store it ends at its first zone.
pub fn refusal(automaton: &[u8]) -> Result<(), u32> {
    match search::search(automaton, &mut []) {
        Outcome::Refused(number) if number <= 8 => Err(u32::from(number)),
        _ => Ok(()),
    }
}

/// Free of 1 to 8, and its own canonical form.
fn is_canonical(automaton: &[u8]) -> bool {
    refusal(automaton).is_ok() && forms::form(automaton) == automaton
}

/// Writes the canonical form into the lent buffer, and gives it back.
pub fn canonical(automaton: &[u8], lent: &mut [u8]) -> Result<Vec<u8>, u32> {
    refusal(automaton)?;
    let form = forms::form(automaton);
    let place = lent.get_mut(..form.len()).ok_or(SHORT)?;
    place.copy_from_slice(&form);
    Ok(form)
}

pub fn searched(automaton: &[u8], store: &mut [i32]) -> Result<(Verdict, Beside), u32> {
    let (outcome, (exact_n, exact_d)) = search::search_with_exact(automaton, store);
    let [kind, n, d, zones, again, inside] = outcome.numbers()?;
    let beside = [exact_n as u64, exact_d as u64, again, inside];
    Ok((Verdict::of([kind, n, d, zones]), beside))
}

pub fn make_empty(lent: &mut [u8]) -> Result<(), u32> {
    let empty = Cache::default().bytes();
    lent.get_mut(..HEADER).ok_or(FULL)?.copy_from_slice(&empty);
    Ok(())
}

pub fn sound(lent: &[u8]) -> Result<(), u32> {
    Cache::read(lent).map(|_| ()).ok_or(BAD)
}

pub fn look_up(lent: &[u8], automaton: &[u8], form: &mut [u8]) -> Result<Option<Verdict>, u32> {
    let form = canonical(automaton, form)?;
    Ok(Cache::read(lent).ok_or(BAD)?.filed(&form))
}

/// From the form on, nothing asks for the automaton as it was drawn.
pub fn consult(
    lent: &mut [u8],
    automaton: &[u8],
    form: &mut [u8],
    store: &mut [i32],
) -> Result<Verdict, u32> {
    let form = canonical(automaton, form)?;
    let mut cache = Cache::read(lent).ok_or(BAD)?;
    if let Some(verdict) = cache.filed(&form) {
        return Ok(verdict);
    }
    let length = cache.length() + 17 + form.len();
    // Lengths past four bytes are not run: such a cache would take 4 GiB.
    if length > lent.len() || u32::try_from(length).is_err() {
        return Err(FULL);
    }
    let (verdict, _) = searched(&form, store)?;
    cache.records.push(Record {
        verdict,
        automaton: form,
    });
    lent[..length].copy_from_slice(&cache.bytes());
    Ok(verdict)
}
