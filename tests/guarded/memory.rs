//! One call of the library with each lent slice in memory of its own.

use crate::calls::{Call, Lent, Places};
use crate::pages::{Guard, Pages};
use std::slice;

/// Room for the longest slice that is drawn.
const MOST_BYTES: usize = 256 << 10;

/// All of it, in place of what was to be lent.
fn read(places: &Places, lent: &mut Lent) {
    unsafe {
        let copy = slice::from_raw_parts(places.automaton, lent.automaton.len());
        lent.automaton.copy_from_slice(copy);
        let copy = slice::from_raw_parts(places.form, lent.form.len());
        lent.form.copy_from_slice(copy);
        lent.length = *places.length;
        let copy = slice::from_raw_parts(places.cache, lent.cache.len());
        lent.cache.copy_from_slice(copy);
        let copy = slice::from_raw_parts(places.store, lent.store.len());
        lent.store.copy_from_slice(copy);
        let copy = slice::from_raw_parts(places.run, lent.run.len());
        lent.run.copy_from_slice(copy);
        lent.passes = *places.passes;
        lent.filed = *places.filed;
        let copy = slice::from_raw_parts(places.answer, lent.answer.len());
        lent.answer.copy_from_slice(copy);
    }
}

pub struct Memory {
    automaton: Pages,
    form: Pages,
    length: Pages,
    cache: Pages,
    store: Pages,
    run: Pages,
    passes: Pages,
    filed: Pages,
    answer: Pages,
}

impl Memory {
    pub fn new() -> Memory {
        Memory {
            automaton: Pages::new(MOST_BYTES),
            form: Pages::new(MOST_BYTES),
            length: Pages::new(8),
            cache: Pages::new(MOST_BYTES),
            store: Pages::new(MOST_BYTES),
            run: Pages::new(MOST_BYTES),
            passes: Pages::new(8),
            filed: Pages::new(8),
            answer: Pages::new(MOST_BYTES),
        }
    }

    pub fn all(&mut self) -> Vec<&mut Pages> {
        vec![
            &mut self.automaton,
            &mut self.form,
            &mut self.length,
            &mut self.cache,
            &mut self.store,
            &mut self.run,
            &mut self.passes,
            &mut self.filed,
            &mut self.answer,
        ]
    }

    /// The library's reply, with what it leaves in place of what was lent.
    pub fn call(&mut self, call: Call, lent: &mut Lent, guard: Guard) -> u32 {
        let places = Places {
            automaton: self.automaton.place(&lent.automaton, guard),
            form: self.form.place(&lent.form, guard),
            length: self.length.place(&[lent.length], guard),
            cache: self.cache.place(&lent.cache, guard),
            store: self.store.place(&lent.store, guard),
            run: self.run.place(&lent.run, guard),
            passes: self.passes.place(&[lent.passes], guard),
            filed: self.filed.place(&[lent.filed], guard),
            answer: self.answer.place(&lent.answer, guard),
        };
        self.automaton.seal();
        if let Call::Sound | Call::LookUp = call {
            self.cache.seal();
        }
        if call == Call::Judge {
            self.run.seal();
        }
        let reply = places.call(call, lent);
        read(&places, lent);
        reply
    }
}
