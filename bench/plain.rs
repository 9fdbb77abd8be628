// Pairs, the two running fractions and reduction in plain Rust, for the benchmarks to time the proved
// code against.
#[derive(Clone, Copy, PartialEq)]
pub struct Pair {
    pub m: i64,
    pub p: u64,
}

#[derive(Clone, Copy)]
pub struct Fraction {
    pub n: u64,
    pub d: u64,
}

// Document 02's: every comparison lowers the exact one; only an empty zone and a containment test that
// holds lower the safe one.
#[derive(Clone, Copy)]
pub struct Fractions {
    pub exact: Fraction,
    pub safe: Fraction,
}

pub const ZERO: Pair = Pair { m: 0, p: 0 };
const NO_LIMIT: Fraction = Fraction { n: 1, d: 0 };
pub const NO_LIMITS: Fractions = Fractions {
    exact: NO_LIMIT,
    safe: NO_LIMIT,
};

pub type Zone = [Pair; 81];

#[derive(Clone, Copy)]
pub struct Work {
    pub zone: Zone,
    pub fractions: Fractions,
}

pub fn less(a: Pair, b: Pair) -> bool {
    a.m < b.m || (a.m == b.m && a.p < b.p)
}

// A running fraction, lowered by the threshold of a comparison in which `chosen` was chosen.
pub fn lowered(f: Fraction, chosen: Pair, other: Pair) -> Fraction {
    if chosen.p <= other.p {
        return f;
    }
    let n = (other.m - chosen.m) as u64;
    let d = chosen.p - other.p;
    if n * f.d < f.n * d {
        Fraction { n, d }
    } else {
        f
    }
}

impl Work {
    // The entry at a place becomes the smaller of itself and q.
    pub fn meet(&mut self, at: usize, q: Pair) {
        let there = self.zone[at];
        let exact = &mut self.fractions.exact;
        if less(q, there) {
            self.zone[at] = q;
            *exact = lowered(*exact, q, there);
        } else {
            *exact = lowered(*exact, there, q);
        }
    }

    // Whether a diagonal pair shows that the zone is empty. Each that does lowers the safe fraction.
    fn is_seen_empty(&mut self, size: usize) -> bool {
        let safe = &mut self.fractions.safe;
        let mut empty = false;
        for i in 0..size {
            let q = self.zone[i * 10];
            if q.m < 0 {
                *safe = lowered(*safe, q, ZERO);
                empty = true;
            }
        }
        empty
    }

    // Whether the zone becomes empty.
    pub fn reduce(&mut self, size: usize) -> bool {
        for k in 0..size {
            for i in 0..size {
                for j in 0..size {
                    let to = self.zone[i * 9 + k];
                    let from = self.zone[k * 9 + j];
                    self.meet(
                        i * 9 + j,
                        Pair {
                            m: to.m + from.m,
                            p: to.p + from.p,
                        },
                    );
                }
            }
            if self.is_seen_empty(size) {
                return true;
            }
        }
        false
    }
}
