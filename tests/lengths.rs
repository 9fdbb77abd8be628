//! Lengths that documents 01 and 02 lay down.

// Each program asks for some of them.
#![allow(dead_code)]

/// The numbers of a slot before its pairs: the location, the slot it came from and the edge taken.
pub const BEFORE_PAIRS: usize = 3;

/// The numbers that one zone of so many clocks takes in the store: 3 + 2(n + 1)².
pub const fn slot_of(clocks: usize) -> usize {
    BEFORE_PAIRS + 2 * (clocks + 1) * (clocks + 1)
}

/// The same for an automaton's zones.
pub fn slot(automaton: &[u8]) -> usize {
    slot_of(usize::from(automaton[5]))
}

/// The length that an automaton tells.
pub fn said(automaton: &[u8]) -> usize {
    u32::from_be_bytes([0, 1, 2, 3].map(|i| automaton[i])) as usize
}

/// The used length that a cache tells.
pub fn used(cache: &[u8]) -> usize {
    said(cache)
}
