//! The states that runs stand in, in whole ticks and without zones: document 01's section "Runs"
//! and nothing else.

use crate::draft::{Draft, Edge, Limit, NO_UPPER};

pub const MOST_CLOCKS: usize = 3;

/// The clocks' ticks. Clocks that the automaton does not have stay 0.
pub type Valuation = [u32; MOST_CLOCKS];

/// Time in ticks of 1/scale, every limit loosened by so many of them.
#[derive(Clone, Copy, PartialEq, Eq, Debug)]
pub struct Loosening {
    pub scale: u32,
    pub error: u32,
}

impl Loosening {
    /// lo × s − e ≤ clock ≤ hi × s + e, written so that nothing falls below 0.
    pub fn allows(self, limits: &[Limit], valuation: &Valuation) -> bool {
        limits.iter().zip(valuation).all(|(&(lo, hi), &clock)| {
            lo * self.scale <= clock + self.error
                && (hi == NO_UPPER || clock <= hi * self.scale + self.error)
        })
    }
}

/// A place for each state: every location has an upper limit for every clock.
pub struct Grid {
    clocks: usize,
    pub locations: usize,
    /// Ticks that a clock can have, 0 included.
    span: usize,
}

impl Grid {
    pub fn new(automaton: &Draft, loosening: Loosening) -> Grid {
        let limits = automaton.invariants.iter().flatten();
        let most = limits.map(|&(_, hi)| hi).max().expect("a clock");
        Grid {
            clocks: automaton.invariants[0].len(),
            locations: automaton.invariants.len(),
            span: (most * loosening.scale + loosening.error) as usize + 1,
        }
    }

    pub fn valuations(&self) -> usize {
        self.span.pow(self.clocks as u32)
    }

    pub fn states(&self) -> usize {
        self.locations * self.valuations()
    }

    pub fn valuation(&self, mut place: usize) -> Valuation {
        let mut valuation = [0; MOST_CLOCKS];
        for clock in &mut valuation[..self.clocks] {
            *clock = (place % self.span) as u32;
            place /= self.span;
        }
        valuation
    }

    pub fn place(&self, location: u8, valuation: &Valuation) -> usize {
        let clocks = valuation[..self.clocks].iter().rev();
        clocks.fold(usize::from(location), |place, &clock| {
            place * self.span + clock as usize
        })
    }
}

pub struct Explorer<'a> {
    automaton: &'a Draft,
    pub loosening: Loosening,
    pub grid: Grid,
    seen: Vec<bool>,
    /// States whose waits and jumps are still to be made.
    open: Vec<(u8, Valuation)>,
}

pub fn reset(edge: &Edge, valuation: &Valuation) -> Valuation {
    let mut after = *valuation;
    for (clock, ticks) in after.iter_mut().enumerate() {
        if edge.reset >> clock & 1 == 1 {
            *ticks = 0;
        }
    }
    after
}

impl Explorer<'_> {
    /// Makes all waits and jumps that there are.
    pub fn explored(automaton: &Draft, loosening: Loosening) -> Explorer<'_> {
        let grid = Grid::new(automaton, loosening);
        let mut explorer = Explorer {
            automaton,
            loosening,
            seen: vec![false; grid.states()],
            grid,
            open: Vec::new(),
        };
        explorer.stand(automaton.start, [0; MOST_CLOCKS]);
        while let Some((location, valuation)) = explorer.open.pop() {
            explorer.wait(location, valuation);
            explorer.jump(location, &valuation);
        }
        explorer
    }

    /// Every state, however a run comes to it, must satisfy its location's loosened invariant.
    fn stand(&mut self, location: u8, valuation: Valuation) {
        let invariant = &self.automaton.invariants[usize::from(location)];
        if !self.loosening.allows(invariant, &valuation) {
            return;
        }
        let place = self.grid.place(location, &valuation);
        if !self.seen[place] {
            self.seen[place] = true;
            self.open.push((location, valuation));
        }
    }

    /// One tick. A longer wait is many of them: an invariant that allows its first and its last
    /// state allows those between.
    fn wait(&mut self, location: u8, mut valuation: Valuation) {
        for clock in &mut valuation[..self.grid.clocks] {
            *clock += 1;
        }
        self.stand(location, valuation);
    }

    /// The guard is asked before the reset.
    fn jump(&mut self, location: u8, valuation: &Valuation) {
        let automaton = self.automaton;
        for edge in automaton.edges.iter().filter(|e| e.from == location) {
            if self.loosening.allows(&edge.guard, valuation) {
                self.stand(edge.to, reset(edge, valuation));
            }
        }
    }

    pub fn reaches(&self, location: u8, valuation: &Valuation) -> bool {
        self.seen[self.grid.place(location, valuation)]
    }

    /// Whether a run stands in the automaton's target.
    pub fn unsafe_run(&self) -> bool {
        let valuations = self.grid.valuations();
        let first = usize::from(self.automaton.target) * valuations;
        self.seen[first..first + valuations].contains(&true)
    }
}
