// Times the canonical form of the proved crate exports, document 02's one order of edges, beside
// the same work in plain Rust and beside the sort alone. Both must write the same; a ratio fails
// nothing.

#[path = "../tests/draft.rs"]
mod draft;
mod draws;
mod families;
#[path = "../tests/library.rs"]
mod library;
mod ordered;
mod times;

use draws::Draws;
use families::{drawn, LARGEST};
use ordered::{arranged, edges, form, layout, rises};
use std::time::Duration;
use times::{best_within, nanoseconds, opaque};

const SEED: u64 = 256;
// What the buffer has before, to see that the rest of it stands.
const UNTOUCHED: u8 = 0xA5;
// A row is timed for at least so many turns and so long.
const TURNS: u32 = 200;
const LEAST_TIME: Duration = Duration::from_millis(400);

// ---- automata of 256 edges and 8 clocks, in order
// As drawn, edges differ in their first bytes.
fn differing_early() -> Vec<u8> {
    form(&drawn(&mut Draws(SEED), &LARGEST))
}

// They are alike but for their last four bytes, a hi.
fn differing_late() -> Vec<u8> {
    let mut automaton = differing_early();
    let (first, width) = layout(&automaton);
    let (head, edges) = automaton[first..].split_at_mut(width);
    let each = edges.chunks_exact_mut(width).enumerate();
    for (number, edge) in each {
        edge.copy_from_slice(head);
        edge[width - 4..].copy_from_slice(&(1 + number as u32).to_be_bytes());
    }
    head[width - 4..].fill(0);
    automaton
}

// ---- orders
type Order = fn(&mut Draws, &mut [&[u8]]);

const ORDERS: [(&str, Order); 3] = [
    ("rising", |_, _| ()),
    ("falling", |_, edges| edges.reverse()),
    ("random", |draws, edges| draws.shuffle(edges)),
];

// ---- both sides
// Of 1 to 8 all automata here are free.
fn rusts(automaton: &[u8], form: &mut [u8]) -> Result<usize, u32> {
    ordered::write(automaton, form).ok_or(13)
}

fn agree(automaton: &[u8]) {
    let (form, all) = (form(automaton).len(), automaton.len());
    for length in [0, form / 2, form - 1, form, all - 1, all] {
        let sides = [library::canonical, rusts].map(|write| {
            let mut form = vec![UNTOUCHED; length];
            (write(automaton, &mut form), form)
        });
        assert!(sides[0] == sides[1], "the form, its length or the refusal");
    }
}

// Edges that stand many times are compared, too.
fn agree_on_repeats(automaton: &[u8]) {
    for different in [1, 2, 128, 255] {
        let draws = &mut Draws(SEED);
        agree(&arranged(automaton, |edges| {
            let first = edges[..different].to_vec();
            edges
                .iter_mut()
                .zip(first.iter().cycle())
                .for_each(|(place, edge)| *place = edge);
            draws.shuffle(edges);
        }));
    }
}

// Microseconds of the form by ours and by Rust, of the refusal alone by ours, and of the sort alone
// by Rust.
fn times(automaton: &[u8]) -> [f64; 4] {
    let mut form = vec![UNTOUCHED; automaton.len()];
    best_within(TURNS, LEAST_TIME, |side| {
        let mut sorted = edges(automaton);
        let time = match side {
            0 => nanoseconds(|| library::canonical(opaque(automaton), &mut form)),
            1 => nanoseconds(|| ordered::write(opaque(automaton), &mut form)),
            2 => nanoseconds(|| library::refusal(opaque(automaton))),
            _ => nanoseconds(|| opaque(&mut sorted).sort()),
        };
        time / 1e3
    })
}

fn main() {
    println!("microseconds for 256 edges of 8 clocks");
    print!("edges        order      Rattle      Rust  ratio");
    println!("   refusal  Rattle less it  Rust's sort  ratio");
    for (name, automaton) in [
        ("differ early", differing_early()),
        ("differ late", differing_late()),
    ] {
        assert!(rises(&automaton), "edges in order");
        agree_on_repeats(&automaton);
        for (order, arrange) in ORDERS {
            let draws = &mut Draws(SEED);
            let automaton = arranged(&automaton, |edges| arrange(draws, edges));
            agree(&automaton);
            let [ours, rust, refusal, sort] = times(&automaton);
            let (ratio, less) = (ours / rust, ours - refusal);
            print!("{name:12} {order:8} {ours:8.2} {rust:9.2} {ratio:6.2}");
            println!(" {refusal:9.2} {less:15.2} {sort:12.2} {:6.2}", less / sort);
        }
    }
}
