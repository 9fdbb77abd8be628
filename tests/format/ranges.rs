// The ranges in docs/FORMAT.md, by the library: it accepts their ends and turns down what is next
// to them.
use crate::document::{table, Row, Sizes};
use crate::library::{search, Verdict};
use crate::own::{total, SMALLEST};
use crate::Format;

// The ends of a range that begins as in 0 to 1,000,000.
fn ends(row: &Row) -> (usize, usize) {
    let words: Vec<&str> = row[3].split([' ', ';']).collect();
    let number = |word: &str| word.replace(',', "").parse().expect("an end of a range");
    (number(words[0]), number(words[2]))
}

// Whether the range is that of what is accepted, all else being refused with a number.
fn is_range(row: &Row, refusal: u32, reply: impl Fn(usize) -> Result<Verdict, u32>) -> bool {
    let (least, most) = ends(row);
    let below = least == 0 || reply(least - 1) == Err(refusal);
    below && reply(least).is_ok() && reply(most).is_ok() && reply(most + 1) == Err(refusal)
}

impl Format {
    // All limits, locations and resets are 0: the target is reached at once, without a store.
    fn blank(&self, sizes: Sizes) -> Vec<u8> {
        let length = total(&self.text, "Automaton", sizes);
        let mut automaton = (length as u32).to_be_bytes().to_vec();
        automaton.extend([1, sizes.n as u8, sizes.m as u8, 0, 0]);
        automaton.extend((sizes.edges as u16).to_be_bytes());
        automaton.resize(length, 0);
        automaton
    }

    pub fn counts_are_ranged(&self) -> bool {
        let rows = table(&self.text, "Automaton");
        let right = |field: &str, sizes: fn(usize) -> Sizes| {
            let row = rows.iter().find(|row| row[2] == field).expect("a count");
            is_range(row, 4, |count| search(&self.blank(sizes(count)), &mut []))
        };
        right("clocks n", |n| Sizes { n, ..SMALLEST })
            && right("locations m", |m| Sizes { m, ..SMALLEST })
            && right("edges E", |edges| Sizes { edges, ..SMALLEST })
    }

    // In the only invariant.
    pub fn limits_are_ranged(&self) -> bool {
        let reply = |at: usize, limit: usize| {
            let mut automaton = self.blank(SMALLEST);
            automaton[at..at + 4].copy_from_slice(&(limit as u32).to_be_bytes());
            search(&automaton, &mut [])
        };
        let rows = table(&self.text, "Limits");
        is_range(&rows[0], 8, |lo| reply(11, lo)) && is_range(&rows[1], 8, |hi| reply(15, hi))
    }
}
