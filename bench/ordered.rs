// Document 02's one order of edges in plain Rust: they rise by their bytes, each once.

// Each program takes some of them.
#![allow(dead_code)]

// Where the edges begin, and the bytes of each, of an automaton free of 1 to 8.
pub fn layout(automaton: &[u8]) -> (usize, usize) {
    let (clocks, locations) = (automaton[5] as usize, automaton[6] as usize);
    (11 + 8 * clocks * locations, 3 + 8 * clocks)
}

pub fn edges(automaton: &[u8]) -> Vec<&[u8]> {
    let (first, width) = layout(automaton);
    automaton[first..].chunks_exact(width).collect()
}

// An automaton with its edges in another order, or with others of its edges in their places.
pub fn arranged(automaton: &[u8], arrange: impl FnOnce(&mut [&[u8]])) -> Vec<u8> {
    let mut edges = edges(automaton);
    arrange(&mut edges);
    [&automaton[..layout(automaton).0], &edges.concat()].concat()
}

// Writes the canonical form and gives its length, unless the buffer is too short.
pub fn write(automaton: &[u8], form: &mut [u8]) -> Option<usize> {
    let (first, width) = layout(automaton);
    let mut edges = edges(automaton);
    edges.sort();
    edges.dedup();
    let length = first + edges.len() * width;
    let form = form.get_mut(..length)?;
    form[..first].copy_from_slice(&automaton[..first]);
    form[..4].copy_from_slice(&(length as u32).to_be_bytes());
    form[9..11].copy_from_slice(&(edges.len() as u16).to_be_bytes());
    for (place, edge) in form[first..].chunks_exact_mut(width).zip(edges) {
        place.copy_from_slice(edge);
    }
    Some(length)
}

pub fn form(automaton: &[u8]) -> Vec<u8> {
    let mut form = vec![0; automaton.len()];
    let length = write(automaton, &mut form);
    form.truncate(length.expect("no form is longer than its automaton"));
    form
}

// Whether an automaton is its own form.
pub fn rises(automaton: &[u8]) -> bool {
    let (first, width) = layout(automaton);
    let edges = automaton[first..].chunks_exact(width);
    edges.clone().zip(edges.skip(1)).all(|(a, b)| a < b)
}
