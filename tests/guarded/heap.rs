//! The calls that valgrind watches. Each slice is a block of the heap with nothing behind it, and
//! what the library must not depend on is left uninitialised: the form's buffer, its length, the
//! store, the buffer for a run and what is behind one, passes, filed, the answer and the free bytes of
//! a cache.

use crate::calls::{self, Call, Lent, Places};
use crate::checks::Checks;
use crate::lengths::used;

/// A block as long as a slice, of which only the beginning is initialised.
struct Block<T> {
    numbers: Vec<T>,
    known: usize,
}

impl<T: Copy + PartialEq> Block<T> {
    fn new(slice: &[T], known: usize) -> Block<T> {
        let mut numbers = Vec::with_capacity(slice.len());
        numbers.extend(&slice[..known]);
        Block { numbers, known }
    }

    fn start(&mut self) -> *mut T {
        self.numbers.as_mut_ptr()
    }

    /// Whether it is as a call on the same contents left them, where it is known or was changed.
    fn agrees(&self, before: &[T], after: &[T]) -> bool {
        let start = self.numbers.as_ptr();
        let written = |i: &usize| *i < self.known || before[*i] != after[*i];
        let mut places = (0..before.len()).filter(written);
        places.all(|i| unsafe { *start.wrapping_add(i) == after[i] })
    }
}

/// The bytes of a cache that a call may depend on: none to make it empty, else the used part.
fn known(call: Call, cache: &[u8]) -> usize {
    match cache.get(..4) {
        _ if call == Call::MakeEmpty => 0,
        None => cache.len(),
        Some(bytes) => cache.len().min(used(bytes).max(5)),
    }
}

/// The numbers of a run's buffer that a call may depend on: none to write it, else the count, and as many
/// as that tells.
fn known_of_run(call: Call, run: &[i64]) -> usize {
    match run.first() {
        Some(count) if call == Call::Judge => {
            let told = usize::try_from(*count).unwrap_or(0);
            told.clamp(1, run.len())
        }
        _ => 0,
    }
}

/// Makes a call on the heap and compares it with the same call on initialised memory.
pub fn compare(checks: &mut Checks, what: &str, call: Call, before: &Lent) {
    let mut after = before.clone();
    let reply = calls::proved(call, &mut after);
    let mut automaton = Block::new(&before.automaton, before.automaton.len());
    let mut form = Block::new(&before.form, 0);
    let mut length = Block::new(&[before.length], 0);
    let mut cache = Block::new(&before.cache, known(call, &before.cache));
    let mut store = Block::new(&before.store, 0);
    let mut run = Block::new(&before.run, known_of_run(call, &before.run));
    let mut passes = Block::new(&[before.passes], 0);
    let mut filed = Block::new(&[before.filed], 0);
    let mut answer = Block::new(&before.answer, 0);
    let places = Places {
        automaton: automaton.start(),
        form: form.start(),
        length: length.start(),
        cache: cache.start(),
        store: store.start(),
        run: run.start(),
        passes: passes.start(),
        filed: filed.start(),
        answer: answer.start(),
    };
    let got = places.call(call, before);
    let parts = [
        reply == Some(got),
        automaton.agrees(&before.automaton, &after.automaton),
        form.agrees(&before.form, &after.form),
        length.agrees(&[before.length], &[after.length]),
        cache.agrees(&before.cache, &after.cache),
        store.agrees(&before.store, &after.store),
        run.agrees(&before.run, &after.run),
        passes.agrees(&[before.passes], &[after.passes]),
        filed.agrees(&[before.filed], &[after.filed]),
        answer.agrees(&before.answer, &after.answer),
    ];
    checks.check(parts == [true; 10], || {
        format!("{what}, {call:?} on the heap: {got}, as before: {parts:?}")
    });
}
