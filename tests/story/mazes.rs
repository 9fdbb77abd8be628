//! Automata drawn around a run: each has at least this run to its target, often with few others.

use crate::draft::{Draft, Edge, Limit, NO_UPPER};
use crate::drawn::Dice;

pub struct Maze {
    pub draft: Draft,
    /// In document 02's form.
    pub run: Vec<i64>,
}

const WAITS: [u32; 8] = [0, 0, 1, 1, 2, 5, 100, 5_000];
/// How far limits are from what the run needs.
const SLACK: [u32; 6] = [0, 0, 0, 1, 3, 1_000];

struct Walk {
    clocks: Vec<u32>,
    location: u8,
    /// For each location the least and the most that each clock was there.
    seen: Vec<Vec<Limit>>,
    waits: Vec<u32>,
    edges: Vec<Edge>,
}

impl Walk {
    fn see(&mut self) {
        let seen = &mut self.seen[usize::from(self.location)];
        for ((least, most), clock) in seen.iter_mut().zip(&self.clocks) {
            *least = (*least).min(*clock);
            *most = (*most).max(*clock);
        }
    }

    fn wait(&mut self, dice: &mut Dice) {
        let time = dice.pick(&WAITS);
        self.clocks.iter_mut().for_each(|clock| *clock += time);
        self.waits.push(time);
        self.see();
    }

    fn jump(&mut self, dice: &mut Dice, to: u8) {
        let guard = self.clocks.iter().map(|clock| guard(dice, *clock));
        let mut edge = Edge {
            from: self.location,
            to,
            reset: 0,
            guard: guard.collect(),
        };
        for (number, clock) in self.clocks.iter_mut().enumerate() {
            if dice.chance(30) {
                edge.reset |= 1 << number;
                *clock = 0;
            }
        }
        self.edges.push(edge);
        self.location = to;
        self.see();
    }
}

fn guard(dice: &mut Dice, clock: u32) -> Limit {
    let (below, above) = (dice.pick(&SLACK), dice.pick(&SLACK));
    match dice.range(0, 9) {
        0..=3 => (0, NO_UPPER),
        4 => (clock.saturating_sub(below), NO_UPPER),
        5 => (0, clock + above),
        _ => (clock.saturating_sub(below), clock + above),
    }
}

fn invariant(dice: &mut Dice, (least, most): Limit) -> Limit {
    let (below, above) = (dice.pick(&SLACK), dice.pick(&SLACK));
    match dice.chance(80) {
        true => (0, most + above),
        false => (least.saturating_sub(below), most + above),
    }
}

/// An edge that the run does not take, and that does not lead to the target.
fn decoy(dice: &mut Dice, clocks: usize, target: u8) -> Edge {
    let any = dice.range(0, 9);
    Edge {
        from: dice.below(usize::from(target)) as u8,
        to: dice.below(usize::from(target)) as u8,
        reset: dice.range(0, (1 << clocks) - 1) as u8,
        guard: (0..clocks).map(|_| guard(dice, any)).collect(),
    }
}

/// The run's edges and others, in any order, and the numbers of the run's.
fn shuffled(dice: &mut Dice, edges: Vec<Edge>, decoys: Vec<Edge>) -> (Vec<Edge>, Vec<i64>) {
    let jumps = edges.len();
    let mut all: Vec<(usize, Edge)> = edges.into_iter().chain(decoys).enumerate().collect();
    for end in (1..all.len()).rev() {
        all.swap(end, dice.below(end + 1));
    }
    let mut numbers = vec![0; jumps];
    for (place, (jump, _)) in all.iter().enumerate() {
        if let Some(number) = numbers.get_mut(*jump) {
            *number = place as i64;
        }
    }
    (all.into_iter().map(|(_, edge)| edge).collect(), numbers)
}

/// So many jumps: most to a new location, the last to the target.
fn walked(dice: &mut Dice, clocks: usize, jumps: u8) -> Walk {
    let mut walk = Walk {
        clocks: vec![0; clocks],
        location: 0,
        seen: vec![vec![(u32::MAX, 0); clocks]; usize::from(jumps) + 1],
        waits: Vec::new(),
        edges: Vec::new(),
    };
    let mut new = 1;
    walk.see();
    for jump in 1..=jumps {
        walk.wait(dice);
        let is_new = jump == jumps || dice.chance(85);
        let to = if is_new {
            new
        } else {
            dice.below(new.into()) as u8
        };
        new += u8::from(is_new);
        walk.jump(dice, to);
    }
    walk.wait(dice);
    walk.seen.truncate(new.into());
    walk
}

pub fn drawn(dice: &mut Dice, most_jumps: u32) -> Maze {
    let (clocks, jumps) = (dice.range(1, 8) as usize, dice.range(0, most_jumps) as u8);
    let walk = walked(dice, clocks, jumps);
    let target = walk.location;
    let decoys = if target > 0 { dice.below(8) } else { 0 };
    let decoys = (0..decoys).map(|_| decoy(dice, clocks, target)).collect();
    let limits = |dice: &mut Dice, seen: &Vec<Limit>| -> Vec<Limit> {
        seen.iter().map(|seen| invariant(dice, *seen)).collect()
    };
    let invariants = walk.seen.iter().map(|seen| limits(dice, seen)).collect();
    let (edges, numbers) = shuffled(dice, walk.edges, decoys);
    let mut run = vec![2 * i64::from(jumps) + 2, walk.waits[0].into()];
    for (number, wait) in numbers.iter().zip(&walk.waits[1..]) {
        run.extend([*number, i64::from(*wait)]);
    }
    let draft = Draft {
        start: 0,
        target,
        invariants,
        edges,
    };
    Maze { draft, run }
}
