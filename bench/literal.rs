// Document 01's search in plain Rust, step for step, with document 02's slots, two fractions and counts of
// the zones dropped, on an automaton that is free of 1 to 8.

// Each program takes some of it.
#![allow(dead_code)]

use crate::lengths::{slot, BEFORE_PAIRS};
use crate::plain::{less, lowered, Fraction, Fractions, Pair, Work, Zone, NO_LIMITS, ZERO};

const NO_UPPER: u32 = u32::MAX;
const COUNTS: u64 = 65_535;

// Kind, n, d and zones.
pub type Verdict = [u64; 4];

#[derive(Clone, Copy, PartialEq)]
enum Stop {
    No,
    Reached,
    Refused(u32),
}

// The slot that a zone came from and the edge taken, both -1 for the first.
type Origin = [i32; 2];

pub struct Kept {
    location: usize,
    origin: Origin,
    zone: Zone,
}

pub struct Search<'a> {
    automaton: &'a [u8],
    clocks: usize,
    slots: usize,
    pub kept: Vec<Kept>,
    fractions: Fractions,
    again: u64,
    inside: u64,
    stop: Stop,
}

pub fn gcd(a: u64, b: u64) -> u64 {
    if b == 0 {
        a
    } else {
        gcd(b, a % b)
    }
}

// In lowest terms.
fn terms(Fraction { n, d }: Fraction) -> [u64; 2] {
    [n / gcd(n, d), d / gcd(n, d)]
}

// A limit, loosened by the error.
fn loosened(m: i64) -> Pair {
    Pair { m, p: 1 }
}

// Whether each of a's pairs is the smaller or equal beside b's.
fn is_within(a: &Zone, b: &Zone, size: usize) -> bool {
    (0..size).all(|i| (0..size).all(|j| !less(b[i * 9 + j], a[i * 9 + j])))
}

impl<'a> Search<'a> {
    // The search of an automaton, ended.
    pub fn of(automaton: &'a [u8], slots: usize) -> Search<'a> {
        let clocks = automaton[5] as usize;
        let mut s = Search {
            automaton,
            clocks,
            slots,
            kept: vec![],
            fractions: NO_LIMITS,
            again: 0,
            inside: 0,
            stop: Stop::No,
        };
        let start = automaton[7] as usize;
        s.enter(start, [ZERO; 81], [-1; 2]);
        let mut next = 0;
        while next < s.kept.len() && s.stop == Stop::No {
            s.expand(next);
            next += 1;
        }
        s
    }

    // The zone at the end of a branch: its successors alone, of which none is empty, kept or compared
    // with another.
    pub fn along(automaton: &'a [u8], branch: &[usize]) -> Zone {
        let s = Search::of(automaton, 0);
        let (zone, fractions) = ([ZERO; 81], NO_LIMITS);
        let mut w = Work { zone, fractions };
        let mut empty = s.is_empty_in(&mut w, automaton[7] as usize);
        for edge in branch {
            let at = s.edge(*edge);
            s.meet(&mut w, at + 3);
            empty |= w.reduce(s.clocks + 1);
            w.zone = s.reset(&w.zone, automaton[at + 2]);
            empty |= s.is_empty_in(&mut w, automaton[at + 1] as usize);
        }
        assert!(!empty, "a branch of the search");
        w.zone
    }

    // The verdict, or a refusal.
    pub fn answer(&self) -> Result<Verdict, u32> {
        let zones = self.kept.len() as u64;
        match self.stop {
            Stop::Refused(number) => Err(number),
            Stop::Reached => Ok([0, 0, 0, zones]),
            Stop::No => {
                let [n, d] = terms(self.fractions.safe);
                Ok([1, n, d, zones])
            }
        }
    }

    // Beside each verdict.
    pub fn exact(&self) -> [u64; 2] {
        terms(self.fractions.exact)
    }

    // The zones dropped by containment, as again and as inside, beside each verdict.
    pub fn dropped(&self) -> [u64; 2] {
        [self.again, self.inside]
    }

    // The kept zones into their slots; the rest of the store stands.
    pub fn store(&self, store: &mut [i32]) {
        let size = self.clocks + 1;
        let slots = store.chunks_exact_mut(slot(self.automaton));
        for (kept, slot) in self.kept.iter().zip(slots) {
            let (first, pairs) = slot.split_at_mut(BEFORE_PAIRS);
            first[0] = kept.location as i32;
            first[1..].copy_from_slice(&kept.origin);
            let places = (0..size * 9).filter(|at| at % 9 < size);
            for (pair, at) in pairs.chunks_exact_mut(2).zip(places) {
                pair.copy_from_slice(&[kept.zone[at].m as i32, kept.zone[at].p as i32]);
            }
        }
    }

    fn expand(&mut self, taken: usize) {
        let Kept { location, zone, .. } = self.kept[taken];
        let edges = u16::from_be_bytes([self.automaton[9], self.automaton[10]]) as usize;
        for i in 0..edges {
            let at = self.edge(i);
            if self.automaton[at] as usize == location {
                self.follow(at, zone, [taken as i32, i as i32]);
            }
            if self.stop != Stop::No {
                return;
            }
        }
    }

    // Where an edge stands.
    fn edge(&self, i: usize) -> usize {
        11 + 8 * self.clocks * self.automaton[6] as usize + i * (3 + 8 * self.clocks)
    }

    // Along the edge that stands at a place of the automaton.
    fn follow(&mut self, at: usize, zone: Zone, origin: Origin) {
        let mut w = Work {
            zone,
            fractions: self.fractions,
        };
        self.meet(&mut w, at + 3);
        let empty = w.reduce(self.clocks + 1);
        self.fractions = w.fractions;
        if !empty {
            let zone = self.reset(&w.zone, self.automaton[at + 2]);
            self.enter(self.automaton[at + 1] as usize, zone, origin);
        }
    }

    fn enter(&mut self, location: usize, zone: Zone, origin: Origin) {
        let mut w = Work {
            zone,
            fractions: self.fractions,
        };
        let empty = self.is_empty_in(&mut w, location);
        self.fractions = w.fractions;
        if !empty {
            self.judge(location, &w.zone, origin);
        }
    }

    // Whether the zone is empty once it has entered a location.
    fn is_empty_in(&self, w: &mut Work, location: usize) -> bool {
        let at = 11 + 8 * self.clocks * location;
        self.meet(w, at);
        if w.reduce(self.clocks + 1) {
            return true;
        }
        for x in 1..=self.clocks {
            w.zone[x * 9] = loosened(self.number(at + 8 * x - 4) as i64);
        }
        w.reduce(self.clocks + 1)
    }

    fn judge(&mut self, location: usize, zone: &Zone, origin: Origin) {
        let size = self.clocks + 1;
        if location == self.automaton[8] as usize {
            self.stop = Stop::Reached;
            return;
        }
        let contains = |k: &&Kept| k.location == location && is_within(zone, &k.zone, size);
        if let Some(old) = self.kept.iter().find(contains) {
            let Fractions { exact, safe } = &mut self.fractions;
            let mut equal = true;
            for at in (0..size * 9).filter(|at| at % 9 < size) {
                *exact = lowered(*exact, zone[at], old.zone[at]);
                *safe = lowered(*safe, zone[at], old.zone[at]);
                equal &= zone[at] == old.zone[at];
            }
            self.again += u64::from(equal);
            self.inside += u64::from(!equal);
        } else if (0..size * 9).any(|at| at % 9 < size && COUNTS < zone[at].p) {
            self.stop = Stop::Refused(9);
        } else if self.kept.len() == self.slots {
            self.stop = Stop::Refused(10);
        } else {
            self.kept.push(Kept {
                location,
                origin,
                zone: *zone,
            });
        }
    }

    // The limits that stand at a place of the automaton.
    fn meet(&self, w: &mut Work, at: usize) {
        for x in 1..=self.clocks {
            let lo = self.number(at + 8 * x - 8);
            let hi = self.number(at + 8 * x - 4);
            if hi != NO_UPPER {
                w.meet(x * 9, loosened(hi as i64));
            }
            w.meet(x, loosened(-(lo as i64)));
        }
    }

    fn reset(&self, zone: &Zone, byte: u8) -> Zone {
        let is_reset = |x: usize| 0 < x && byte >> (x - 1) & 1 == 1;
        let source = |x: usize| if is_reset(x) { 0 } else { x };
        let mut z = *zone;
        for i in 0..=self.clocks {
            for j in 0..=self.clocks {
                z[i * 9 + j] = zone[source(i) * 9 + source(j)];
            }
        }
        z
    }

    fn number(&self, at: usize) -> u32 {
        u32::from_be_bytes(self.automaton[at..at + 4].try_into().unwrap())
    }
}
