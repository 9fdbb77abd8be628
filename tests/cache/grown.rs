//! Caches grown from empty by nothing but consulting.

use crate::automata;
use crate::calls::{form_length, random_bytes, Call, Lent};
use crate::draft::Draft;
use crate::drawn::Dice;
use crate::forms;
use crate::lengths::{slot, slot_of, used};
use crate::oracle::{self, Cache};
use crate::rings;
use crate::table::named;
use crate::tally::Tally;
use crate::unsound::record;
use std::collections::BTreeMap;

struct Grown {
    cache: Vec<u8>,
    /// What the first answer for a form was: kind, n, d, zones.
    filed: BTreeMap<Vec<u8>, [u64; 4]>,
}

impl Grown {
    fn empty(tally: &mut Tally, dice: &mut Dice, what: &str, lent: usize) -> Grown {
        let before = random_bytes(dice, lent);
        let before = Lent::new(dice, &before, &[], 0);
        Grown {
            cache: tally.must(what, Call::MakeEmpty, &before, 0).lent.cache,
            filed: BTreeMap::new(),
        }
    }

    /// Beside the comparison, what documents 01 and 02 say of any consulting, without a second
    /// cache.
    fn consult(&mut self, tally: &mut Tally, what: &str, before: &Lent) {
        let left = tally.call(what, Call::Consult, before);
        let after = left.lent;
        let accepted = oracle::refusal(&before.automaton).is_ok();
        let form = accepted.then(|| forms::form(&before.automaton));
        let filed = form.as_ref().and_then(|form| self.filed.get(form));
        let same_cache = after.cache == before.cache;
        let same = same_cache && after.store == before.store;
        let lawful = match (left.reply, &form, filed) {
            (0, Some(_), Some(verdict)) => *verdict == after.verdict() && same,
            (0, Some(form), None) => used(&after.cache) == used(&before.cache) + 17 + form.len(),
            (9 | 10, Some(_), None) => same_cache,
            (11 | 12, Some(_), None) => same,
            (13, Some(form), _) => before.form.len() < form.len() && after == *before,
            (1..=8, None, None) => after == *before,
            _ => false,
        };
        let written = matches!(left.reply, 1..=8 | 13) || after.formed(before);
        tally.check(lawful && written, || {
            format!("{}: reply {} against 01 and 02", what, left.reply)
        });
        if let (0, Some(form)) = (left.reply, form) {
            self.filed.insert(form, after.verdict());
        }
        self.cache = after.cache;
    }

    fn look_up(&self, tally: &mut Tally, dice: &mut Dice, what: &str, automaton: &[u8]) {
        let before = Lent::new(dice, &self.cache, automaton, 0);
        let after = tally.must(what, Call::LookUp, &before, 0).lent;
        let filed = self.filed.get(&forms::form(automaton));
        let found = filed.map_or(after.filed == 0, |verdict| {
            after.filed == 1 && *verdict == after.verdict()
        });
        tally.check(found, || format!("{}: not what was filed", what));
    }
}

/// Shuffled half of the time, and now and then with a buffer that may be too short for the form.
fn asked(dice: &mut Dice, cache: &[u8], automaton: &[u8], store: usize) -> Lent {
    let form = form_length(automaton);
    let automaton = match form {
        Some(_) if dice.chance(50) => automata::shuffled(dice, automaton),
        _ => automaton.to_vec(),
    };
    let lent = Lent::new(dice, cache, &automaton, store);
    match form {
        Some(length) if dice.chance(5) => {
            let length = length - dice.below(2);
            lent.forming(dice, length)
        }
        _ => lent,
    }
}

const STORES: [usize; 9] = [
    0,
    0,
    slot_of(1) - 1,
    slot_of(1),
    40,
    slot_of(8),
    800,
    3_000,
    6_000,
];

/// A cache with room for all, with automata of every kind, each consulted several times.
pub fn large(tally: &mut Tally, round: u64) {
    let mut dice = Dice::new(11 + 1_000 * round);
    let automata = automata::accepted(&mut dice, 130);
    let refused = automata::refused();
    let mut grown = Grown::empty(tally, &mut dice, "a large cache", 120_000);
    for turn in 0..700 {
        let what = format!("a large cache, round {}, turn {}", round, turn);
        let automaton = if dice.chance(10) {
            &dice.one(&refused).1
        } else {
            dice.one(&automata)
        };
        let store = dice.pick(&STORES);
        let before = asked(&mut dice, &grown.cache, automaton, store);
        grown.consult(tally, &what, &before);
        tally.call(&what, Call::Refusal, &before);
        if turn % 20 == 0 {
            tally.must(&what, Call::Sound, &before, 0);
        }
    }
    for (turn, automaton) in automata.iter().enumerate() {
        let what = format!("a large cache in the end, automaton {}", turn);
        grown.look_up(tally, &mut dice, &what, automaton);
    }
    every_store(tally, &mut dice, &grown);
}

/// The filed verdict is the search's of the form at every store that lets the search finish, and no
/// smaller store does.
fn every_store(tally: &mut Tally, dice: &mut Dice, grown: &Grown) {
    for (turn, (automaton, verdict)) in grown.filed.iter().enumerate() {
        let what = format!("filed form {} with a store of its own", turn);
        let exact = verdict[3] as usize * slot(automaton);
        for store in [exact, exact + 1, exact + 50 * slot(automaton)] {
            let before = Lent::new(dice, &grown.cache, automaton, store);
            let found = tally.must(&what, Call::Search, &before, 0).lent.verdict();
            tally.check(found == *verdict, || format!("{}: {:?}", what, found));
        }
        let mut empty = Grown::empty(tally, dice, &what, 17 + automaton.len() + 5);
        if exact > 0 {
            let before = Lent::new(dice, &empty.cache, automaton, exact - 1);
            tally.must(&what, Call::Search, &before, 10);
            empty.consult(tally, &what, &before);
        }
        let before = Lent::new(dice, &empty.cache, automaton, exact);
        empty.consult(tally, &what, &before);
        let same = empty.filed.get(automaton) == Some(verdict);
        tally.check(same, || format!("{}: another verdict is filed", what));
        // The cache is full now; a store isn't needed any more.
        let before = Lent::new(dice, &empty.cache, automaton, 0);
        empty.consult(tally, &what, &before);
    }
}

/// Caches that become full, so that 12 comes between answers.
pub fn narrow(tally: &mut Tally, round: u64) {
    for seed in (100..140).map(|seed| seed + 1_000 * round) {
        let mut dice = Dice::new(seed);
        let mut automata = automata::accepted(&mut dice, 20);
        automata.retain(|automaton| automaton.len() < 500);
        let room = dice.range(5, 1_500) as usize;
        let title = format!("a narrow cache, seed {}", seed);
        let mut grown = Grown::empty(tally, &mut dice, &title, room);
        for turn in 0..40 {
            let what = format!("{}, turn {}", title, turn);
            let automaton = dice.one(&automata);
            let store = dice.pick(&STORES[..7]);
            let before = asked(&mut dice, &grown.cache, automaton, store);
            grown.consult(tally, &what, &before);
            grown.look_up(tally, &mut dice, &what, automaton);
        }
    }
}

/// Forms that are alike up to the last byte, or but for one of the first fields.
fn alike(clocks: usize) -> Vec<Vec<u8>> {
    let full = || automata::long(clocks, 255, (3, 500));
    let changes: [fn(&mut Draft); 8] = [
        |_| (),
        |d| d.edges[255].guard.last_mut().expect("a clock").1 = 501,
        |d| d.edges[255].reset = 1,
        |d| d.edges[255].to = 2,
        |d| d.edges[254].to = 2,
        |d| d.start = 1,
        |d| d.target = 1,
        |d| d.invariants[0][0].0 = 1,
    ];
    let mut all = vec![
        automata::long(clocks, 254, (3, 500)).bytes(),
        automata::long(clocks, 254, (3, 600)).bytes(),
    ];
    for change in changes {
        let mut draft = full();
        change(&mut draft);
        all.push(draft.bytes());
    }
    automata::forms(&all)
}

/// Only automata that differ late, or early and at equal length, tell a whole comparison from one
/// of lengths or of some bytes.
pub fn shared_beginnings(tally: &mut Tally) {
    for clocks in [1, 8] {
        let mut dice = Dice::new(21 + clocks as u64);
        let automata = alike(clocks);
        let title = format!("shared beginnings, {} clocks", clocks);
        let room = automata
            .iter()
            .map(|automaton| 17 + automaton.len())
            .sum::<usize>();
        let mut grown = Grown::empty(tally, &mut dice, &title, 5 + room);
        for (turn, automaton) in automata.iter().enumerate() {
            let what = format!("{}, turn {}", title, turn);
            let before = Lent::new(&mut dice, &grown.cache, automaton, 2_000);
            grown.consult(tally, &what, &before);
            for other in &automata {
                grown.look_up(tally, &mut dice, &what, other);
            }
        }
        let filed = grown.filed.len();
        tally.check(filed == automata.len(), || {
            format!("{}: {} filed", title, filed)
        });
    }
}

/// 9, in a search and in a consultation: the store has all zones kept before it, the cache stands.
pub fn large_counts(tally: &mut Tally) {
    let mut dice = Dice::new(31);
    let automaton = rings::wheel(62, 1).bytes();
    let mut grown = Grown::empty(tally, &mut dice, "9", 5_000);
    let filed = Lent::new(&mut dice, &grown.cache, &named("A"), slot_of(1));
    grown.consult(tally, "9, before it", &filed);
    let before = Lent::new(&mut dice, &grown.cache, &automaton, 65_535 * slot_of(2) + 1);
    tally.must("9", Call::Search, &before, 9);
    let after = tally.must("9", Call::Consult, &before, 9).lent;
    tally.check(after.formed(&before), || "9: the form".into());
    let before = Lent::new(
        &mut dice,
        &grown.cache[..60],
        &automaton,
        65_535 * slot_of(2),
    );
    tally.must("9 without room", Call::Consult, &before, 12);
}

/// A used length that comes to need its first byte, once written and once read.
pub fn past_three_bytes(tally: &mut Tally) {
    let mut dice = Dice::new(141);
    let longest = automata::longest();
    let turned = |turn: usize| {
        let mut automaton = longest.clone();
        automaton[16..18].copy_from_slice(&(turn as u16).to_be_bytes());
        automaton
    };
    let count = (1 << 24) / (17 + longest.len());
    let records = (0..count).map(|turn| record(&turned(turn), 0, 0, 0, 63));
    let cache = Cache {
        records: records.collect(),
    };
    let mut lent = cache.bytes();
    lent.resize((1 << 24) + 30_000, 7);
    let before = Lent::new(&mut dice, &lent, &turned(count), 63 * slot(&longest));
    let left = tally
        .must("past three bytes", Call::Consult, &before, 0)
        .lent;
    let first = left.cache[0];
    tally.check(before.cache[0] == 0 && first == 1, || {
        format!("past three bytes: {}", first)
    });
    tally.must("past three bytes, again", Call::Consult, &left, 0);
    let before = Lent::new(&mut dice, &left.cache, &turned(count + 1), slot(&longest));
    tally.must("past three bytes, full", Call::Consult, &before, 12);
}
