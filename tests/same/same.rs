//! Document 02's Change 3: two parts are equal exactly where their lengths and all their bytes agree.
//! Two strings are made the same or made different, so what must be said is known. Each lies between
//! pages that nobody may read, so that a word that leads outside stops the program.

#[path = "../checks.rs"]
mod checks;
#[path = "../compared.rs"]
mod compared;
#[path = "../guarded/pages.rs"]
#[allow(dead_code)]
mod pages;

use checks::Checks;
use compared::same;
use pages::{Guard, Pages, GUARDS};
use std::process::ExitCode;
use std::slice;

const LONGEST: usize = 70;

type Pattern = fn(usize) -> u8;
// No two bytes are alike.
const DIFFERENT: Pattern = |at| (at * 37 + 11) as u8;
// Where all are alike, only the place of a change tells.
const PATTERNS: [Pattern; 3] = [|_| 0, |_| 255, DIFFERENT];

struct Test {
    checks: Checks,
    pages: [Pages; 2],
    guards: [Guard; 2],
}

impl Test {
    // Whether two strings are said to be equal, taken either way.
    fn told(&mut self, a: &[u8], b: &[u8], equal: bool, what: &str) {
        let [first, second] = &mut self.pages;
        let places = (
            first.place(a, self.guards[0]),
            second.place(b, self.guards[1]),
        );
        let a = unsafe { slice::from_raw_parts(places.0, a.len()) };
        let b = unsafe { slice::from_raw_parts(places.1, b.len()) };
        let said = [same(a, b), same(b, a)];
        self.checks.check(said == [equal; 2], || {
            format!("{what}: {said:?} of {a:?} and {b:?}")
        });
    }

    // One byte, in each of its bits and in all of them.
    fn one_byte(&mut self, a: &[u8]) {
        for at in 0..a.len() {
            for change in [1, 2, 4, 8, 16, 32, 64, 128, 255] {
                let mut b = a.to_vec();
                b[at] ^= change;
                self.told(a, &b, false, "one byte");
            }
        }
    }

    // Another length: beginnings, ends, and bytes behind it.
    fn lengths(&mut self, a: &[u8]) {
        for cut in 1..=a.len() {
            self.told(a, &a[..a.len() - cut], false, "a beginning");
            self.told(a, &a[cut..], false, "an end");
            self.told(a, &[a, &a[..cut]].concat(), false, "bytes behind it");
        }
    }

    // The same bytes in another order: two exchanged, all reversed, and turned. They are all
    // different.
    fn orders(&mut self, a: &[u8]) {
        for j in 0..a.len() {
            for i in 0..j {
                let mut b = a.to_vec();
                b.swap(i, j);
                self.told(a, &b, false, "two bytes exchanged");
            }
        }
        for by in 1..a.len() {
            let mut b = a.to_vec();
            b.rotate_left(by);
            self.told(a, &b, false, "turned");
        }
        if a.len() > 1 {
            let b: Vec<u8> = a.iter().rev().copied().collect();
            self.told(a, &b, false, "reversed");
        }
    }

    fn length(&mut self, length: usize) {
        for pattern in PATTERNS {
            let a: Vec<u8> = (0..length).map(pattern).collect();
            self.told(&a, &a, true, "the same bytes");
            self.one_byte(&a);
            self.lengths(&a);
        }
        let different: Vec<u8> = (0..length).map(DIFFERENT).collect();
        self.orders(&different);
        let itself = same(&different, &different);
        self.checks
            .check(itself, || format!("{different:?} is not itself"));
    }
}

fn main() -> ExitCode {
    let mut test = Test {
        checks: Checks::default(),
        pages: [Pages::new(2 * LONGEST), Pages::new(2 * LONGEST)],
        guards: [GUARDS[0]; 2],
    };
    for first in GUARDS {
        for second in GUARDS {
            test.guards = [first, second];
            (0..=LONGEST).for_each(|length| test.length(length));
        }
    }
    test.checks.sum_up()
}
