//! Room, the making of an empty cache, and which refusal comes before which.

use crate::automata;
use crate::calls::{form_length, random_bytes, Call, Lent};
use crate::drawn::Dice;
use crate::forms;
use crate::lengths::{slot, slot_of};
use crate::oracle::{Cache, Verdict};
use crate::table::{named, with_byte};
use crate::tally::Tally;
use crate::unsound::record;

/// A sound cache. K is filed though no search of it ends in a verdict.
fn few() -> Cache {
    let records = vec![
        record(&named("G"), 1, 3, 1, 1),
        record(&named("K"), 0, 0, 0, 4),
        record(&named("H"), 1, 1, 0, 1),
    ];
    Cache { records }
}

/// The layout, once by hand: automaton A consulted on an empty cache and on one that has D, and with
/// its edge twice, which leaves no trace.
pub fn layout(tally: &mut Tally) {
    let mut dice = Dice::new(91);
    let a = named("A");
    let doubled = [&[0, 0, 0, 49], &a[4..9], &[0, 2], &a[11..], &a[27..]].concat();
    let record = [0, 0, 0, 55, 1, 0, 0, 0, 1, 0, 0, 0, 1, 0, 0, 0, 1];
    let empty = vec![0, 0, 0, 5, 1];
    let one = [&[0, 0, 0, 60, 1], &record[..], &a[..]].concat();
    let d = named("D");
    let filed = [0, 0, 0, 44, 1, 0, 0, 0, 1, 0, 0, 0, 0, 0, 0, 0, 1];
    let with_d = [&[0, 0, 0, 49, 1], &filed[..], &d[..]].concat();
    let two = [&[0, 0, 0, 104, 1], &with_d[5..], &record[..], &a[..]].concat();
    let rows = [
        (&a, &empty, &one),
        (&doubled, &empty, &one),
        (&a, &with_d, &two),
    ];
    for (drawn, before, after) in rows {
        let tail = random_bytes(&mut dice, 70);
        let lent = [&before[..], &tail].concat();
        let lent = Lent::new(&mut dice, &lent, drawn, 14);
        let left = tally.must("layout", Call::Consult, &lent, 0).lent;
        let stands = &tail[after.len() - before.len()..];
        let right = left.cache == [&after[..], stands].concat() && left.verdict() == [1, 1, 1, 1];
        let kept = [&[0, -1, -1, 0, 0, 0, 0, 5, 1, 0, 0], &lent.store[11..]].concat();
        let formed = left.form.starts_with(&a);
        tally.check(right && formed && left.store == kept, || {
            format!("layout of {:?}", left.cache)
        });
    }
}

pub fn empty(tally: &mut Tally) {
    let mut dice = Dice::new(101);
    for turn in 0..60 {
        for length in (0..=8).chain([60, 61, 1_000]) {
            let what = format!("making empty {} bytes, turn {}", length, turn);
            let contents = random_bytes(&mut dice, length);
            let before = Lent::new(&mut dice, &contents, &named("A"), slot_of(1));
            let reply = if length < 5 { 12 } else { 0 };
            let made = tally.must(&what, Call::MakeEmpty, &before, reply).lent;
            let stands = made.cache.get(5..) == contents.get(5..);
            let header = length < 5 || made.cache.starts_with(&[0, 0, 0, 5, 1]);
            tally.check(stands && header, || what.clone());
            // Fewer bytes than a header's are no cache; A's record takes 55 more.
            let reply = match length {
                0..=4 => 11,
                5..=59 => 12,
                _ => 0,
            };
            tally.must(&what, Call::Consult, &made, reply);
        }
    }
}

/// Every number of free bytes around what a record needs, with too small a store and with enough:
/// 12 is judged before the search.
pub fn room(tally: &mut Tally) {
    let mut dice = Dice::new(111);
    let caches = [Cache::default(), few()];
    // Zones that must be kept, so that 10 is possible.
    let automata = [("A", 1), ("B", 1), ("D", 1), ("E", 0), ("largest", 63)];
    for (cache, (name, zones)) in caches.iter().flat_map(|c| automata.map(|a| (c, a))) {
        let automaton = named(name);
        let (used, need) = (cache.bytes(), 17 + forms::form(&automaton).len());
        let exact = zones * slot(&automaton);
        let stores = [0, exact.saturating_sub(1), exact];
        let frees = (0..30).chain(need - 20..need + 3);
        for (free, store) in frees.flat_map(|free| stores.map(|store| (free, store))) {
            let what = format!("{} with {} free of {}, store {}", name, free, need, store);
            let lent = [&used[..], &random_bytes(&mut dice, free)].concat();
            let before = Lent::new(&mut dice, &lent, &automaton, store);
            let reply = match (free < need, store < exact) {
                (true, _) => 12,
                (false, true) => 10,
                (false, false) => 0,
            };
            let left = tally.must(&what, Call::Consult, &before, reply);
            let right = match reply {
                12 => left.lent.cache == before.cache && left.lent.store == before.store,
                10 => left.lent.cache == before.cache,
                _ => left.lent.cache != before.cache,
            };
            tally.check(right && left.lent.formed(&before), || what.clone());
        }
    }
}

/// What is filed is answered on a full cache, without a store, whatever a search would say.
pub fn full(tally: &mut Tally) {
    let mut dice = Dice::new(121);
    let cache = few();
    for record in &cache.records {
        for (free, store) in [(0, 0), (0, 500), (1, 1), (16, 0), (17, 500), (30, 0)] {
            let what = format!("a full cache, {} free, store {}", free, store);
            let lent = [&cache.bytes()[..], &random_bytes(&mut dice, free)].concat();
            let before = Lent::new(&mut dice, &lent, &record.automaton, store);
            let after = tally.must(&what, Call::Consult, &before, 0).lent;
            let Verdict { kind, n, d, zones } = record.verdict;
            let filed = [u32::from(kind), n, d, zones].map(u64::from);
            let same = after.cache == before.cache && after.store == before.store;
            let right = same && after.verdict() == filed && after.formed(&before);
            tally.check(right, || what.clone());
        }
    }
}

/// An automaton with these of its edges.
fn listed(name: &str, edges: &[usize]) -> Vec<u8> {
    let automaton = named(name);
    let (head, all) = forms::parts(&automaton);
    let edges: Vec<&[u8]> = edges.iter().map(|&i| all[i]).collect();
    forms::joined(head, &edges)
}

/// Caches with their number: 11, 12 for an automaton that isn't filed, or 0.
fn caches(dice: &mut Dice) -> Vec<(u32, Vec<u8>)> {
    let full = few().bytes();
    let mut refused = few();
    refused.records[1].automaton = named("J");
    let mut twice = few();
    twice.records.push(twice.records[0].clone());
    // Unsound by the order of edges alone.
    let mut exchanged = few();
    exchanged.records[1].automaton = listed("K", &[1, 0, 2]);
    let mut doubled = few();
    doubled
        .records
        .push(record(&listed("A", &[0, 0]), 1, 1, 1, 1));
    let mut roomy = |cache: &[u8]| [cache, &random_bytes(dice, 4_000)].concat();
    let free = roomy(&full);
    vec![
        (11, Vec::new()),
        (11, full[..4].to_vec()),
        (11, full[..full.len() - 1].to_vec()),
        (11, with_byte(&full, 4, 2)),
        (11, with_byte(&free, 4, 0)),
        (11, refused.bytes()),
        (11, roomy(&twice.bytes())),
        (11, roomy(&exchanged.bytes())),
        (11, roomy(&doubled.bytes())),
        (12, full),
        (0, free),
    ]
}

/// An automaton with its number of 1 to 8, or 0, and whether it is filed in `few`.
struct Asked {
    number: u32,
    filed: bool,
    automaton: Vec<u8>,
}

fn all_asked() -> Vec<Asked> {
    let asked = |number: u32, filed: bool, automaton: Vec<u8>| Asked {
        number,
        filed,
        automaton,
    };
    let refused = automata::refused();
    let refused = refused
        .into_iter()
        .map(|(number, a)| asked(number, false, a));
    let filed = ["G", "K", "H"].map(|name| asked(0, true, named(name)));
    let others = ["A", "B", "D"].map(|name| asked(0, false, named(name)));
    // The same in another order, and with a repeat.
    let orders = [[2, 0, 1, 2], [1, 1, 2, 0], [0, 1, 2, 0], [2, 2, 1, 0]];
    let drawn = orders.map(|order| asked(0, true, listed("K", &order)));
    refused.chain(filed).chain(others).chain(drawn).collect()
}

/// The first number that isn't 0, in the order given.
fn first(numbers: &[u32]) -> u32 {
    numbers
        .iter()
        .copied()
        .find(|&number| number > 0)
        .unwrap_or(0)
}

/// The bytes for the form: one too few, just enough, or as many as are drawn, which may be more.
#[derive(Clone, Copy, PartialEq, Debug)]
enum Room {
    Short,
    Exact,
    Drawn,
}

impl Room {
    /// Where there is no form, none would be enough.
    fn bytes(self, automaton: &[u8]) -> usize {
        let form = form_length(automaton).unwrap_or(0);
        match self {
            Room::Short => form.saturating_sub(1),
            Room::Exact => form,
            Room::Drawn => automaton.len(),
        }
    }
}

/// A cache with its number, the numbers of the store, and the bytes for the form.
type Setting<'a> = (&'a (u32, Vec<u8>), usize, Room);

/// Of several reasons to refuse the first in the order of documents 01 and 02 counts: 1 to 8; 13;
/// then the form is written and stands; 11; what is filed needs no more; 12; then the search. Those
/// that aren't filed keep one zone of one clock.
fn judge(tally: &mut Tally, dice: &mut Dice, asked: &Asked, setting: Setting) {
    let ((bad, cache), store, room) = setting;
    let what = format!(
        "{} with {}, store {}, room {:?}",
        asked.number, bad, store, room
    );
    let before = Lent::new(dice, cache, &asked.automaton, store);
    let before = before.forming(dice, room.bytes(&asked.automaton));
    let (unsound, full) = if *bad == 11 { (11, 0) } else { (0, *bad) };
    let (short, small) = (
        if room == Room::Short { 13 } else { 0 },
        if store < slot_of(1) { 10 } else { 0 },
    );
    let written = first(&[asked.number, short]);
    let looked = first(&[written, unsound]);
    let consulted = if asked.filed {
        looked
    } else {
        first(&[looked, full, small])
    };
    tally.must(&what, Call::Refusal, &before, asked.number);
    tally.must(&what, Call::Sound, &before, unsound);
    tally.call(&what, Call::Search, &before);
    let forming = [
        (Call::Canonical, written),
        (Call::LookUp, looked),
        (Call::Consult, consulted),
    ];
    for (call, reply) in forming {
        let after = tally.must(&what, call, &before, reply).lent;
        let right = match written {
            0 => after.formed(&before),
            _ => after == before,
        };
        tally.check(right, || format!("{}, {:?}: the form", what, call));
    }
}

pub fn order(tally: &mut Tally) {
    let mut dice = Dice::new(131);
    let caches = caches(&mut dice);
    let rooms = [Room::Short, Room::Exact, Room::Drawn];
    let stores = [0, slot_of(1) - 1, slot_of(1)];
    let lent = stores.map(|store| rooms.map(|room| (store, room)));
    for asked in all_asked() {
        for cache in &caches {
            for (store, room) in lent.concat() {
                judge(tally, &mut dice, &asked, (cache, store, room));
            }
        }
    }
}
