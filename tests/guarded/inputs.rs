//! What is lent: automata, caches and stores, random, grown or damaged.

use crate::automata;
use crate::calls::{form_length, random_bytes, Lent};
use crate::damage::{counts, noise, spoil};
use crate::draft::recount;
use crate::drawn::{self, Dice, Lean, Size};
use crate::lengths::{self, used};
use crate::library;
use crate::runs;
use crate::spoilt::spoilt;

/// A store in which the searches of nearly all drawn automata end.
const STORE: usize = 6_000;

/// A cache grown from empty by consulting.
struct Grown {
    bytes: Vec<u8>,
    /// Where each record begins, and last where the used part ends, as the bytes do.
    borders: Vec<usize>,
}

impl Grown {
    fn new(dice: &mut Dice, automata: &[Vec<u8>]) -> Grown {
        let count = dice.pick(&[0, 1, 1, 2, 3, 5, 9]);
        let some: Vec<_> = (0..count).map(|_| dice.one(automata)).collect();
        let room: usize = some.iter().map(|automaton| 17 + automaton.len()).sum();
        let mut bytes = vec![0; 5 + room];
        assert_eq!(library::make_empty(&mut bytes), 0);
        let mut borders = vec![5];
        for automaton in some {
            let before = used(&bytes);
            // A search may give up, and an automaton may be there already.
            let mut form = vec![0; automaton.len()];
            let _ = library::consult(&mut bytes, automaton, &mut form, &mut [0; STORE]);
            if used(&bytes) > before {
                borders.push(used(&bytes));
            }
        }
        bytes.truncate(used(&bytes));
        Grown { bytes, borders }
    }

    fn filed(&self, dice: &mut Dice) -> Option<Vec<u8>> {
        let records = self.borders.len() - 1;
        let k = dice.below(records.max(1));
        let end = *self.borders.get(k + 1)?;
        Some(self.bytes[self.borders[k] + 17..end].to_vec())
    }
}

fn damaged_automaton(dice: &mut Dice) -> Vec<u8> {
    let lean = dice.pick(&[Lean::Plain, Lean::Calm, Lean::Guarded, Lean::Wheel]);
    let size = Size::drawn(dice);
    let draft = drawn::drawn(dice, lean, &size);
    spoilt(dice, draft)
}

/// Counts that call for other bytes than are there, the length field often telling those that are.
fn miscounted(dice: &mut Dice, automaton: &[u8]) -> Vec<u8> {
    let mut bytes = automaton.to_vec();
    bytes.truncate(dice.range(11, 300) as usize);
    counts(dice, &mut bytes, 0);
    if dice.chance(80) {
        recount(&mut bytes);
    }
    bytes
}

/// The bytes for the form: often just enough or one too few, also none, or as many as drawn.
fn room(dice: &mut Dice, automaton: &[u8]) -> usize {
    let all = automaton.len();
    let form = form_length(automaton).unwrap_or(all);
    match dice.range(0, 9) {
        0 => 0,
        1 => form.saturating_sub(1),
        2 => dice.below(all + 1),
        3..=5 => form,
        6 | 7 => all,
        _ => all + dice.below(100),
    }
}

/// The free bytes behind a cache's used part, some just enough for a record and some one too few.
fn free(dice: &mut Dice, automaton: &[u8]) -> Vec<u8> {
    let record = 17 + form_length(automaton).unwrap_or(automaton.len()) as u32;
    let count = match dice.range(0, 4) {
        0 => 0,
        1 => record,
        2 => record - 1,
        3 => dice.range(0, 200),
        _ => record + dice.range(0, 5_000),
    };
    random_bytes(dice, count as usize)
}

/// The numbers of a store: none, some slots, one number fewer, whole pages, or any number.
fn store(dice: &mut Dice, automaton: &[u8]) -> usize {
    let slot = match automaton.get(5) {
        Some(1..=8) => lengths::slot(automaton),
        _ => lengths::slot_of(1),
    };
    let slots = slot * dice.pick(&[1, 2, 3, 10, 30]);
    match dice.range(0, 5) {
        0 => 0,
        1 => slots,
        2 => slots - 1,
        3 => 1_024 * dice.pick(&[1, 2, 4]),
        4 => dice.range(0, 20) as usize,
        _ => dice.range(0, 5_000) as usize,
    }
}

/// What each turn draws from.
pub struct Inputs {
    automata: Vec<Vec<u8>>,
    caches: Vec<Grown>,
}

impl Inputs {
    pub fn new(dice: &mut Dice, caches: usize) -> Inputs {
        let mut automata = automata::accepted(dice, 60);
        automata.extend(automata::small(dice, 60));
        automata.push(automata::longest());
        let caches = (0..caches).map(|_| Grown::new(dice, &automata)).collect();
        Inputs { automata, caches }
    }

    fn automaton(&self, dice: &mut Dice, cache: &Grown) -> Vec<u8> {
        match dice.range(0, 11) {
            0..=6 if dice.chance(50) => {
                let other = dice.one(&self.automata);
                let filed = cache.filed(dice).unwrap_or_else(|| other.clone());
                automata::shuffled(dice, &filed)
            }
            0..=4 => dice.one(&self.automata).clone(),
            5..=6 => {
                let automaton = dice.one(&self.automata);
                automata::shuffled(dice, automaton)
            }
            7 | 8 => damaged_automaton(dice),
            9 => {
                let automaton = dice.one(&self.automata);
                miscounted(dice, automaton)
            }
            10 => dice.one(&automata::refused()).1.clone(),
            _ => {
                let length = dice.range(0, 80) as usize;
                random_bytes(dice, length)
            }
        }
    }

    pub fn draw(&self, dice: &mut Dice) -> Lent {
        let grown = dice.one(&self.caches);
        let automaton = self.automaton(dice, grown);
        let mut cache = [&grown.bytes[..], &free(dice, &automaton)].concat();
        match dice.range(0, 9) {
            0..=3 => {}
            4 => cache = noise(dice),
            _ => spoil(dice, &mut cache, &grown.borders),
        }
        let store = store(dice, &automaton);
        let (answer, room) = (dice.below(11), room(dice, &automaton));
        let lent = Lent::new(dice, &cache, &automaton, store);
        let lent = lent.answering(dice, answer).forming(dice, room);
        lent.running(&runs::drawn(dice, &automaton))
    }
}
