//! The canonical form of an automaton, document 02's one order of edges, written from that document
//! alone.

use crate::draft::recount;

/// What stands before the edges, and the bytes of each edge, of an automaton free of 1 to 8.
pub fn parts(automaton: &[u8]) -> (&[u8], Vec<&[u8]>) {
    let (clocks, locations) = (usize::from(automaton[5]), usize::from(automaton[6]));
    let (head, edges) = automaton.split_at(11 + 8 * clocks * locations);
    (head, edges.chunks(3 + 8 * clocks).collect())
}

/// The automaton with these edges: its length and its number of edges are put right.
pub fn joined(head: &[u8], edges: &[&[u8]]) -> Vec<u8> {
    let mut automaton = [head, &edges.concat()].concat();
    automaton[9..11].copy_from_slice(&(edges.len() as u16).to_be_bytes());
    recount(&mut automaton);
    automaton
}

/// The edges rise by their bytes, each once.
pub fn form(automaton: &[u8]) -> Vec<u8> {
    let (head, mut edges) = parts(automaton);
    edges.sort();
    edges.dedup();
    joined(head, &edges)
}
