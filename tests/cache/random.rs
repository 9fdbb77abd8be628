//! Caches with random damage.

use crate::automata;
use crate::calls::{random_bytes, Call, Lent};
use crate::drawn::Dice;
use crate::lengths::slot_of;
use crate::oracle::{self, Cache, Record, Verdict};
use crate::tally::Tally;
use crate::unsound::{disorders, put, VERDICTS};

const TURNS: usize = 9_000;

fn verdict(dice: &mut Dice, lawful: bool) -> Verdict {
    let (kind, n, d, right) = dice.pick(&VERDICTS);
    if lawful && !right {
        return verdict(dice, lawful);
    }
    let zones = dice.range(0, 300);
    Verdict { kind, n, d, zones }
}

/// A sound cache of a few records.
fn sound(dice: &mut Dice, forms: &[Vec<u8>]) -> Cache {
    let first = dice.below(forms.len() - 5);
    let count = dice.range(0, 5) as usize;
    let some = &forms[first..first + count];
    let records = some.iter().map(|automaton| Record {
        verdict: verdict(dice, true),
        automaton: automaton.clone(),
    });
    Cache {
        records: records.collect(),
    }
}

/// A damage to the records, after which the lengths still fit.
fn spoil_records(dice: &mut Dice, cache: &mut Cache) {
    let count = cache.records.len();
    if count == 0 {
        return;
    }
    let (k, other) = (dice.below(count), dice.below(count));
    let automaton = &mut cache.records[k].automaton;
    match dice.range(0, 6) {
        0 => cache.records.swap(k, other),
        1 => cache.records[k].verdict = verdict(dice, false),
        2 => cache.records.insert(other, cache.records[k].clone()),
        3 => cache.records[k].automaton = dice.one(&automata::refused()).1.clone(),
        // An earlier damage may have left no bytes.
        4 if !automaton.is_empty() => {
            let at = dice.below(automaton.len());
            automaton[at] = dice.pick(&[0, 1, 2, 3, 9, 255]);
        }
        // Nor need it have left edges.
        5 if oracle::refusal(automaton).is_ok() && automaton[10] > 0 => {
            *automaton = dice.one(&disorders(automaton)).clone();
        }
        _ => {
            automaton.truncate(dice.range(0, 30) as usize);
        }
    }
}

/// A damage to the bytes.
fn spoil_bytes(dice: &mut Dice, bytes: &mut Vec<u8>, used: usize) {
    let at = dice.below(bytes.len());
    match dice.range(0, 6) {
        0 => bytes[at] = dice.range(0, 255) as u8,
        1 => bytes[at] ^= 1 << dice.range(0, 7),
        2 => bytes.truncate(at.max(4)),
        3 => put(bytes, 0, dice.range(0, used as u32 + 3)),
        4 => {
            bytes.remove(at);
        }
        5 => bytes.insert(at, dice.range(0, 255) as u8),
        _ => {
            let noise = random_bytes(dice, bytes.len());
            bytes[5..].copy_from_slice(&noise[5..]);
        }
    }
}

fn damaged(dice: &mut Dice, forms: &[Vec<u8>]) -> Vec<u8> {
    let mut cache = sound(dice, forms);
    for _ in 0..dice.pick(&[0, 0, 1, 1, 2]) {
        spoil_records(dice, &mut cache);
    }
    let mut bytes = cache.bytes();
    let used = bytes.len();
    let tail = dice.range(0, 150) as usize;
    bytes.extend(random_bytes(dice, tail));
    for _ in 0..dice.pick(&[0, 1, 1, 2, 5]) {
        // A cut may have left too little for a further damage.
        if bytes.len() > 5 {
            spoil_bytes(dice, &mut bytes, used);
        }
    }
    bytes
}

/// One that is likely to be there, one that isn't, or one that is turned down.
fn asked(dice: &mut Dice, automata: &[Vec<u8>], cache: &[u8]) -> Vec<u8> {
    if cache.len() > 22 && dice.chance(60) {
        // The first record's automaton, as far as the bytes tell.
        let end = 5 + usize::from(cache[8]);
        let first = &cache[22..end.clamp(22, cache.len())];
        if oracle::refusal(first).is_ok() {
            return automata::shuffled(dice, first);
        }
    }
    if dice.chance(80) {
        return dice.one(automata).clone();
    }
    dice.one(&automata::refused()).1.clone()
}

pub fn damage(tally: &mut Tally, round: u64) {
    let mut dice = Dice::new(71 + 1_000 * round);
    let automata = automata::small(&mut dice, 40);
    let forms = automata::forms(&automata);
    for turn in 0..TURNS {
        let what = format!("random damage, round {}, turn {}", round, turn);
        let cache = damaged(&mut dice, &forms);
        let automaton = asked(&mut dice, &automata, &cache);
        let store = dice.pick(&[0, slot_of(1) - 1, slot_of(1), 20, 100, 400]);
        let before = Lent::new(&mut dice, &cache, &automaton, store);
        let before = if dice.chance(10) {
            let length = dice.below(automaton.len() + 1);
            before.forming(&mut dice, length)
        } else {
            before
        };
        for call in [Call::Canonical, Call::Sound, Call::LookUp, Call::Consult] {
            tally.call(&what, call, &before);
        }
    }
}

/// Nothing but random bytes, the first of them often as a header has them.
pub fn noise(tally: &mut Tally, round: u64) {
    let mut dice = Dice::new(81 + 1_000 * round);
    let automata = automata::small(&mut dice, 10);
    for turn in 0..TURNS / 3 {
        let what = format!("random bytes, round {}, turn {}", round, turn);
        let length = dice.range(0, 80) as usize;
        let mut cache = random_bytes(&mut dice, length);
        if length >= 5 && dice.chance(80) {
            put(&mut cache, 0, dice.range(4, length as u32));
            cache[4] = 1;
        }
        if length >= 9 && dice.chance(50) {
            put(&mut cache, 5, length as u32 - 5);
        }
        let automaton = dice.one(&automata);
        let before = Lent::new(&mut dice, &cache, automaton, 100);
        for call in [Call::Sound, Call::LookUp, Call::Consult] {
            tally.call(&what, call, &before);
        }
    }
}
