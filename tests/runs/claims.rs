//! What an answer says of runs, and the errors at which that is tried.

use crate::draft::Draft;
use crate::explorer::{Explorer, Grid, Loosening};
use crate::library::Verdict;

const SCALES: [u32; 6] = [1, 2, 3, 5, 7, 10];
/// A grid of more states is visited only at scale 1, so that each claim is tried somewhere.
const MOST_STATES: usize = 60_000;
const LARGE: [(u32, u32); 6] = [(1, 7), (1, 20), (1, 40), (2, 33), (3, 100), (7, 500)];

/// A fraction below which something is claimed; 1/0, at any error.
#[derive(Clone, Copy, PartialEq, Eq, Debug)]
pub struct Bound {
    pub n: u32,
    pub d: u32,
}

#[derive(Clone, Copy, PartialEq, Eq, Debug)]
pub enum Claim {
    /// A run in whole time units, with no error.
    Reached,
    /// No run at any error below a fraction.
    Holds(Bound),
}

fn loosening((scale, error): (u32, u32)) -> Loosening {
    Loosening { scale, error }
}

impl Bound {
    pub fn new([n, d]: [u64; 2]) -> Bound {
        let [n, d] = [n, d].map(|number| number as u32);
        Bound { n, d }
    }

    pub fn is_any(self) -> bool {
        self.d == 0
    }

    pub fn twice(self) -> Bound {
        let n = 2 * self.n;
        Bound { n, ..self }
    }

    pub fn is_at_most(self, other: Bound) -> bool {
        self.n * other.d <= other.n * self.d
    }

    /// Whether e ticks are an error below it: e × d < n × s.
    pub fn is_above(self, error: Loosening) -> bool {
        error.error * self.d < self.n * error.scale
    }

    /// The largest error below it at each scale, and smaller ones.
    pub fn errors_below(self) -> Vec<Loosening> {
        let Bound { n, d } = self;
        if self.is_any() {
            let small = Bound { n: 1, d: 1 }.errors_below();
            return [small, LARGE.map(loosening).to_vec()].concat();
        }
        let mut tried = Vec::new();
        for scale in SCALES {
            let largest = (n * scale - 1) / d;
            tried.extend([largest, largest / 2, 0].map(|error| loosening((scale, error))));
        }
        tried.dedup();
        tried
    }

    /// The smallest error at it or above it at each scale, and larger ones.
    pub fn errors_from(self) -> Vec<Loosening> {
        let Bound { n, d } = self;
        if self.is_any() {
            return Vec::new();
        }
        let mut tried = Vec::new();
        for scale in SCALES {
            let smallest = (n * scale + d - 1) / d;
            let errors = [smallest, smallest + 1, 2 * smallest + 1];
            tried.extend(errors.map(|error| loosening((scale, error))));
        }
        tried
    }
}

impl Claim {
    pub fn of([kind, n, d, _]: Verdict) -> Claim {
        match kind {
            0 => Claim::Reached,
            _ => Claim::Holds(Bound::new([n, d])),
        }
    }

    fn errors(self) -> Vec<Loosening> {
        match self {
            Claim::Reached => vec![loosening((1, 0))],
            Claim::Holds(safe) => safe.errors_below(),
        }
    }

    /// An error at which runs are not as claimed.
    pub fn refuted(self, automaton: &Draft) -> Option<Loosening> {
        let unsafe_run = self == Claim::Reached;
        let few = |l: &Loosening| Grid::new(automaton, *l).states() <= MOST_STATES;
        let wrong = |l: &Loosening| Explorer::explored(automaton, *l).unsafe_run() != unsafe_run;
        let mut errors = self.errors();
        errors.retain(|l| l.scale == 1 || few(l));
        errors.into_iter().find(wrong)
    }
}
