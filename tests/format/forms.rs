// What docs/FORMAT.md says of forms, by the library: of the edges that its text names, with the guard
// of the automaton in the dump.
use crate::document::beginnings;
use crate::library::{canonical, consult, look_up, sound};
use crate::{Format, BYTE};

impl Format {
    // The automaton in the dump with other edges, by their first bytes.
    fn with_edges(&self, edges: &[&[u8]]) -> Vec<u8> {
        let mut automaton = self.automaton.bytes();
        let guard = automaton
            .split_off(self.sizes().value("11 + 8nm"))
            .split_off(3);
        for first in edges {
            automaton.extend(*first);
            automaton.extend(&guard);
        }
        let length = automaton.len() as u32;
        automaton[..4].copy_from_slice(&length.to_be_bytes());
        automaton[10] = edges.len() as u8;
        automaton
    }

    // The cache in the dump with another automaton.
    fn with_automaton(&self, automaton: &[u8]) -> Vec<u8> {
        let mut cache = self.cache.bytes();
        cache.truncate(22);
        cache.extend(automaton);
        let used = cache.len() as u32;
        cache[..4].copy_from_slice(&used.to_be_bytes());
        cache[5..9].copy_from_slice(&(used - 5).to_be_bytes());
        cache
    }

    // The first two, which fall, are turned round.
    pub fn edges_are_turned(&self) -> bool {
        let said = beginnings(&self.text);
        let (drawn, form) = match &said[..] {
            [high, low, _] => (self.with_edges(&[high, low]), self.with_edges(&[low, high])),
            _ => return false,
        };
        let mut written = vec![BYTE; 49];
        canonical(&drawn, &mut written) == Ok(49) && written == form && drawn != form
    }

    // The last is the dump's own, so that its 38 bytes are the form of the 49 with two of it.
    fn doubled(&self) -> Vec<u8> {
        let said = beginnings(&self.text);
        let last = said.last().map_or(&[][..], |first| first);
        self.with_edges(&[last, last])
    }

    pub fn repeats_are_dropped(&self) -> bool {
        let doubled = self.doubled();
        let (mut form, mut short) = ([BYTE; 38], [BYTE; 37]);
        doubled.len() == 49
            && canonical(&doubled, &mut short) == Err(13)
            && short == [BYTE; 37]
            && canonical(&doubled, &mut form) == Ok(38)
            && form[..] == self.automaton.bytes()
    }

    // 11, for the same automaton too.
    pub fn repeats_are_unsound(&self) -> bool {
        let doubled = self.doubled();
        let mut cache = self.with_automaton(&doubled);
        let before = cache.clone();
        let (lone, form) = (
            self.with_automaton(&self.automaton.bytes()),
            &mut [BYTE; 49],
        );
        sound(&lone) == 0
            && sound(&cache) == 11
            && look_up(&cache, &doubled, form) == Err(11)
            && consult(&mut cache, &doubled, form, &mut []) == Err(11)
            && cache == before
    }
}
