// The searches that are timed: the proved crate's, and two in Rust.
use crate::lengths::slot;
use crate::library;
use crate::literal::Search;
use crate::oracle;
use crate::times::opaque;

// All numbers of an answer: the exact fraction and the zones dropped, too.
pub type Answer = Result<library::Answer, u32>;

pub struct Side {
    pub name: &'static str,
    search: fn(&[u8], &mut [i32]) -> Answer,
}

pub const SIDES: [Side; 3] = [
    Side {
        name: "ours",
        search: library::search_answer,
    },
    Side {
        name: "literal",
        search: literal,
    },
    Side {
        name: "independent",
        search: independent,
    },
];

fn literal(automaton: &[u8], store: &mut [i32]) -> Answer {
    let search = Search::of(automaton, store.len() / slot(automaton));
    search.store(store);
    let [kind, n, d, zones] = search.answer()?;
    let ([exact_n, exact_d], [again, inside]) = (search.exact(), search.dropped());
    Ok([kind, n, d, zones, exact_n, exact_d, again, inside])
}

fn independent(automaton: &[u8], store: &mut [i32]) -> Answer {
    let (outcome, (exact_n, exact_d)) = oracle::search_with_exact(automaton, store);
    let [kind, n, d, zones, again, inside] = outcome.numbers()?;
    let [exact_n, exact_d] = [exact_n, exact_d].map(|number| number as u64);
    Ok([kind, n, d, zones, exact_n, exact_d, again, inside])
}

// By this name valgrind knows what to count.
#[no_mangle]
#[inline(never)]
pub fn one_search(side: &Side, automaton: &[u8], store: &mut [i32]) -> Answer {
    (side.search)(opaque(automaton), store)
}
