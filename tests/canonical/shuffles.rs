//! Orders and repeats of one automaton's edges: one form, one record and one verdict. Two offices
//! share a cache: the first consults it, the second finds what is filed.

use crate::automata;
use crate::calls::{Call, Lent};
use crate::drawn::{self, Dice, Lean, Size};
use crate::forms::form;
use crate::lengths::used;
use crate::offices;
use crate::tally::{Left, Tally};

pub const DIFFER: &str = "another fraction in another order";
pub const MANY_DIFFER: &str = "another fraction in another order of many edges";
const AUTOMATA: usize = 700;
/// Of one automaton.
const SHUFFLES: usize = 6;
/// Document 01's automaton of the greatest length keeps 63 zones of 165 numbers.
const STORE: usize = 12_000;
/// Of one automaton with up to as many edges as there can be.
const MANY: usize = 400;

/// An empty cache with room for one record.
fn empty(form: &[u8]) -> Vec<u8> {
    [&[0, 0, 0, 5, 1], &vec![0x5a; 17 + form.len()][..]].concat()
}

/// Whether the only record is the form's, with the verdict that was told.
fn is_filed(left: &Left, form: &[u8]) -> bool {
    let cache = &left.lent.cache;
    let [kind, n, d, zones] = left.lent.verdict();
    let numbers = [n, d, zones].map(|x| (x as u32).to_be_bytes()).concat();
    let verdict = [&[kind as u8], &numbers[..]].concat();
    used(cache) == cache.len() && cache[9..22] == verdict && cache[22..] == *form
}

/// The second office has another order, and neither a store nor free bytes: it is told the filed
/// verdict. As drawn, its search may find another fraction, and reaches where the form's does: tells
/// whether it found one.
fn second(tally: &mut Tally, dice: &mut Dice, what: &str, filed: &Left, other: &[u8]) -> bool {
    let (cache, verdict) = (&filed.lent.cache, filed.lent.verdict());
    let lent = Lent::new(dice, cache, other, 0);
    // Just enough bytes for the form, and as many as are drawn.
    for room in [cache.len() - 22, other.len()] {
        let before = lent.clone().forming(dice, room);
        let written = tally.must(what, Call::Canonical, &before, 0).lent;
        let form = &written.form[..written.length as usize];
        let looked = tally.must(what, Call::LookUp, &before, 0).lent;
        let consulted = tally.must(what, Call::Consult, &before, 0).lent;
        let right = *form == cache[22..]
            && looked.filed == 1
            && looked.verdict() == verdict
            && consulted.verdict() == verdict
            && consulted.cache == *cache;
        tally.check(right, || format!("{what}: the second office"));
    }
    let before = Lent::new(dice, &[], other, STORE);
    let bare = tally.call(what, Call::Search, &before);
    let [kind, n, d, _] = bare.lent.verdict();
    if bare.reply == 0 {
        tally.check(kind == verdict[0], || {
            format!("{what}: kinds {kind}, {}", verdict[0])
        });
    }
    bare.reply == 0 && [n, d] != verdict[1..3]
}

/// The first office: as many bytes for the form as it drew.
fn first(tally: &mut Tally, dice: &mut Dice, what: &str, drawn: &[u8]) -> Left {
    let form = form(drawn);
    let before = Lent::new(dice, &empty(&form), drawn, STORE).forming(dice, drawn.len());
    let first = tally.call(what, Call::Consult, &before);
    let searched = tally.call(what, Call::Search, &Lent::new(dice, &[], &form, STORE));
    // What the form's search says as drawn is what is filed; it may give up, and then nothing is.
    let right = match first.reply {
        0 => first.lent.verdict() == searched.lent.verdict() && is_filed(&first, &form),
        number => number == searched.reply && first.lent.cache == before.cache,
    };
    tally.check(right && first.lent.formed(&before), || {
        format!("{what}: the first office")
    });
    first
}

fn judge(tally: &mut Tally, dice: &mut Dice, what: &str, automaton: &[u8]) {
    let drawn = automata::shuffled(dice, automaton);
    let filed = first(tally, dice, what, &drawn);
    if filed.reply == 0 {
        for turn in 0..SHUFFLES {
            let what = format!("{what}, order {turn}");
            let other = automata::shuffled(dice, automaton);
            let differs = second(tally, dice, &what, &filed, &other);
            tally.meet(DIFFER, differs);
        }
    }
}

/// Another order, first as the first office: the record is the same. Then as the second.
fn either(tally: &mut Tally, dice: &mut Dice, what: &str, filed: &Left, other: &[u8]) -> bool {
    let again = first(tally, dice, what, other);
    let same = again.reply == 0 && again.lent.cache == filed.lent.cache;
    tally.check(same, || format!("{what}: another record"));
    second(tally, dice, what, filed, other)
}

/// The lists of up to five numbers in which each of 0, 1 and 2 stands.
fn lists() -> Vec<Vec<usize>> {
    let digits = |number: usize, count: u32| -> Vec<usize> {
        let places = (0..count).map(|place| 3_usize.pow(place));
        places.map(|place| number / place % 3).collect()
    };
    let of = |count: u32| (0..3_usize.pow(count)).map(move |number| digits(number, count));
    let mut all: Vec<Vec<usize>> = (3..=5).flat_map(of).collect();
    all.retain(|list| (0..3).all(|number| list.contains(&number)));
    all
}

/// Every short list of the offices' edges. By hand there are 6 of three, 36 of four and 150 of five.
pub fn every_list(tally: &mut Tally) {
    let mut dice = Dice::new(24);
    let ordered = offices::drawn(&[0, 1, 2]).bytes();
    let filed = first(tally, &mut dice, "the offices' form", &ordered);
    let (told, lists) = (filed.lent.verdict(), lists());
    let right = told == offices::numbers(offices::FORM) && lists.len() == 6 + 36 + 150;
    tally.check(right, || format!("{} lists, {told:?}", lists.len()));
    for list in lists {
        let what = format!("the offices' edges {list:?}");
        let drawn = offices::drawn(&list).bytes();
        let differs = either(tally, &mut dice, &what, &filed, &drawn);
        // By hand, as of the two offices: where the free loop is behind the other one.
        let expected = list.iter().find(|&&edge| edge < 2) == Some(&1);
        tally.check(differs == expected, || {
            format!("{what}: the fraction as drawn")
        });
    }
}

/// One automaton, with repeats up to as many edges as there can be. Its seed is one that gives other
/// fractions in other orders.
pub fn many(tally: &mut Tally) {
    let mut dice = Dice::new(29);
    let size = Size {
        clocks: 2,
        locations: 4,
        edges: 40,
    };
    let automaton = drawn::drawn(&mut dice, Lean::Guarded, &size).bytes();
    let filed = first(tally, &mut dice, "many edges", &automaton);
    for turn in 0..MANY {
        let what = format!("many edges, order {turn}");
        let other = automata::repeating(&mut dice, &automaton, 256);
        let differs = either(tally, &mut dice, &what, &filed, &other);
        tally.meet(MANY_DIFFER, differs);
    }
}

/// As many edges as there can be; few clocks, so that many are alike.
fn crowded(dice: &mut Dice) -> Vec<u8> {
    let size = Size {
        clocks: dice.range(1, 2),
        locations: dice.range(2, 4),
        edges: dice.range(200, 256),
    };
    let lean = dice.pick(&[Lean::Plain, Lean::Calm, Lean::Guarded]);
    drawn::drawn(dice, lean, &size).bytes()
}

pub fn random(tally: &mut Tally, round: u64) {
    let mut dice = Dice::new(1_000 * round + 22);
    let mut automata = automata::accepted(&mut dice, AUTOMATA);
    automata.extend((0..AUTOMATA / 10).map(|_| crowded(&mut dice)));
    for (turn, automaton) in automata.iter().enumerate() {
        let what = format!("shuffled automaton {turn} of round {round}");
        judge(tally, &mut dice, &what, automaton);
    }
}
