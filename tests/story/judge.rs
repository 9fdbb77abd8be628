//! A second judge of runs, written from documents 01 and 02 alone: whether a buffer begins with a run
//! in whole time units with no loosening that ends at the target.

// Each program asks for some of it.
#![allow(dead_code)]

const NO_UPPER: i64 = u32::MAX as i64;

/// Lo and hi of each clock.
pub type Limits = Vec<(i64, i64)>;

pub struct Edge {
    pub from: u8,
    pub to: u8,
    pub reset: u8,
    pub guard: Limits,
}

/// What an automaton says of runs.
pub struct Judge {
    pub start: u8,
    pub target: u8,
    pub invariants: Vec<Limits>,
    pub edges: Vec<Edge>,
}

struct State {
    location: u8,
    clocks: Vec<i64>,
}

fn limits(bytes: &[u8]) -> Limits {
    let number = |b: &[u8]| b.iter().fold(0, |n, &b| n << 8 | i64::from(b));
    let limit = |b: &[u8]| (number(&b[..4]), number(&b[4..]));
    bytes.chunks(8).map(limit).collect()
}

/// "A limit lo ≤ clock ≤ hi", and a guard's hi may be FFFFFFFF, "meaning no upper limit".
fn hold(limits: &Limits, clocks: &[i64]) -> bool {
    let holds =
        |(&(lo, hi), &clock): (&(i64, i64), &i64)| lo <= clock && (hi == NO_UPPER || clock <= hi);
    limits.iter().zip(clocks).all(holds)
}

/// "It begins with its own count of numbers, 2k + 2 for k jumps": what follows the count, if there is
/// so much. "A wait is followed by a jump and a jump by a wait, waits at both ends."
fn told(buffer: &[i64]) -> Option<&[i64]> {
    let count = usize::try_from(*buffer.first()?).ok()?;
    if count < 2 || count % 2 == 1 {
        return None;
    }
    buffer.get(1..count)
}

pub fn is_reset(edge: &Edge, clock: usize) -> bool {
    edge.reset >> clock & 1 == 1
}

impl Judge {
    /// Of an automaton that is free of 1 to 8.
    pub fn of(automaton: &[u8]) -> Judge {
        let row = 8 * usize::from(automaton[5]);
        let (invariants, edges) = automaton[11..].split_at(row * usize::from(automaton[6]));
        let edge = |b: &[u8]| Edge {
            from: b[0],
            to: b[1],
            reset: b[2],
            guard: limits(&b[3..]),
        };
        Judge {
            start: automaton[7],
            target: automaton[8],
            invariants: invariants.chunks(row).map(limits).collect(),
            edges: edges.chunks(3 + row).map(edge).collect(),
        }
    }

    /// "Every state, the first and that just after a jump included, satisfies its location's
    /// invariant."
    fn stands(&self, state: &State) -> bool {
        hold(&self.invariants[usize::from(state.location)], &state.clocks)
    }

    /// "A wait adds the same whole number, 0 or more, to all clocks and stays in its location." A clock
    /// that 64 bits do not hold is above every limit.
    fn wait(&self, state: &mut State, time: i64) -> bool {
        let mut fits = time >= 0;
        for clock in &mut state.clocks {
            fits = fits && *clock <= i64::MAX - time;
            *clock = clock.wrapping_add(time);
        }
        fits && self.stands(state)
    }

    /// "A jump along an edge is made only in the edge's from and leads to its to: the guard must hold
    /// first, then the reset clocks are put to 0."
    fn jump(&self, state: &mut State, number: i64) -> bool {
        let edge = usize::try_from(number).ok().and_then(|n| self.edges.get(n));
        let edge = match edge {
            Some(edge) if edge.from == state.location && hold(&edge.guard, &state.clocks) => edge,
            _ => return false,
        };
        for (number, clock) in state.clocks.iter_mut().enumerate() {
            if is_reset(edge, number) {
                *clock = 0;
            }
        }
        state.location = edge.to;
        self.stands(state)
    }

    /// Whether "the buffer begins with a run of the card in this form, ending at the target".
    pub fn passes(&self, buffer: &[i64]) -> bool {
        let run = match told(buffer) {
            Some(run) => run,
            None => return false,
        };
        let mut state = State {
            location: self.start,
            clocks: vec![0; self.invariants[0].len()],
        };
        let mut lawful = self.stands(&state);
        for (place, &number) in run.iter().enumerate() {
            lawful = lawful
                && match place % 2 {
                    0 => self.wait(&mut state, number),
                    _ => self.jump(&mut state, number),
                };
            if !lawful {
                return false;
            }
        }
        lawful && state.location == self.target
    }
}
