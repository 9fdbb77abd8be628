// Fischer's mutual exclusion of two processes as one automaton, a location for each state of both and of the shared variable.
use super::Case;
use crate::draft::{Draft, Edge, Limit, NO_UPPER};
use crate::rings::FREE;

#[derive(Clone, Copy, PartialEq)]
enum Phase {
    Idle,
    Request,
    Wait,
    Critical,
}
use Phase::{Critical, Idle, Request, Wait};

#[derive(Clone, Copy, PartialEq)]
struct State {
    phases: [Phase; 2],
    // Whose turn it is: 1 or 2, or 0 for nobody's.
    turn: usize,
}

const START: State = State {
    phases: [Idle; 2],
    turn: 0,
};
// Both critical, whosever turn it is.
const CLASH: State = State {
    phases: [Critical; 2],
    turn: 0,
};

struct Fischer {
    // The turn is written within so long of a request, and read no sooner than so long after.
    within: u32,
    after: u32,
    // Clocks that no guard asks for: since a process became critical, and since one left.
    observers: u8,
}

// The longest that a process stays in a phase, and that an observer waits.
const LATEST: u32 = 60;
const OBSERVED: u32 = 240;
// Some keep more zones than the program's store has slots for.
const ROOM: usize = 1_000;

// What a process does: its next phase, the turn then, and the limit of its clock, which is reset.
struct Step(Phase, usize, Limit);

impl Fischer {
    fn steps(&self, process: usize, state: &State) -> Vec<Step> {
        let (turn, own) = (state.turn, process + 1);
        match state.phases[process] {
            Idle if turn == 0 => vec![Step(Idle, 0, FREE), Step(Request, 0, FREE)],
            // So that it may stay for any time.
            Idle => vec![Step(Idle, turn, FREE)],
            Request => vec![Step(Wait, own, (0, self.within))],
            Wait if turn == own => vec![Step(Critical, own, (self.after, NO_UPPER))],
            Wait if turn == 0 => vec![Step(Request, 0, FREE)],
            Wait => vec![],
            Critical => vec![Step(Idle, 0, FREE)],
        }
    }

    // Only states that are reached along edges become locations.
    fn draft(&self) -> Draft {
        let mut states = vec![START, CLASH];
        let mut edges = vec![];
        let mut from = 0;
        while from < states.len() {
            let state = states[from];
            let all = [0, 1].map(|process| (process, self.steps(process, &state)));
            for (process, steps) in all.iter().filter(|_| state != CLASH) {
                for step in steps {
                    let to = number(&mut states, after(&state, *process, step));
                    edges.push(self.edge(from as u8, to, *process, state.phases[*process], step));
                }
            }
            from += 1;
        }
        Draft {
            start: 0,
            target: 1,
            invariants: states.iter().map(|state| self.invariant(state)).collect(),
            edges,
        }
    }

    fn edge(&self, from: u8, to: u8, process: usize, left: Phase, step: &Step) -> Edge {
        let mut guard = vec![FREE; 2 + self.observers as usize];
        guard[process] = step.2;
        let observed = ((step.0 == Critical) as u8) << 2 | ((left == Critical) as u8) << 3;
        let there = (1 << guard.len()) - 1;
        Edge {
            from,
            to,
            reset: (1 << process | observed) & there,
            guard,
        }
    }

    fn invariant(&self, state: &State) -> Vec<Limit> {
        let longest = |phase: &Phase| {
            if *phase == Request {
                self.within
            } else {
                LATEST
            }
        };
        let own = state.phases.iter().map(|phase| (0, longest(phase)));
        own.chain(vec![(0, OBSERVED); self.observers.into()])
            .collect()
    }

    fn case(self, told: &str) -> Case {
        let name = format!("fischer, {} clocks, {told}", 2 + self.observers);
        Case::drafted(name, &self.draft()).room_for(ROOM)
    }
}

fn after(state: &State, process: usize, step: &Step) -> State {
    let mut next = *state;
    next.phases[process] = step.0;
    next.turn = step.1;
    if next.phases == CLASH.phases {
        CLASH
    } else {
        next
    }
}

// That of the state's location, a new one if there is none.
fn number(states: &mut Vec<State>, state: State) -> u8 {
    let there = states.iter().position(|s| *s == state);
    let number = there.unwrap_or_else(|| {
        states.push(state);
        states.len() - 1
    });
    number as u8
}

const fn fischer(within: u32, after: u32, observers: u8) -> Fischer {
    Fischer {
        within,
        after,
        observers,
    }
}

pub fn cases() -> Vec<Case> {
    vec![
        fischer(10, 20, 0).case("safe"),
        fischer(20, 10, 0).case("unsafe"),
        fischer(10, 20, 1).case("safe"),
        fischer(10, 20, 2).case("safe"),
    ]
}
