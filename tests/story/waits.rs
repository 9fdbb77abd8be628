//! Runs along given edges, made without the library: of all their waits those with the earliest and
//! with the latest jumps. For other waits than the library's writer chooses.

use crate::judge::{is_reset, Judge};

/// The time of one is at most that of the other and so much more. Time 0 is the start's, time i that of
/// the i-th jump, and the last that of the end.
struct Bound {
    time: usize,
    other: usize,
    most: i64,
}

fn limits(bounds: &mut Vec<Bound>, limits: &[(i64, i64)], time: usize, resets: &[usize]) {
    for (&(lo, hi), &reset) in limits.iter().zip(resets) {
        bounds.push(Bound {
            time: reset,
            other: time,
            most: -lo,
        });
        if hi < i64::from(u32::MAX) {
            bounds.push(Bound {
                time,
                other: reset,
                most: hi,
            });
        }
    }
}

/// All that must hold of the times of a run along these edges.
fn bounds(automaton: &Judge, edges: &[usize]) -> Vec<Bound> {
    let mut bounds = Vec::new();
    let mut location = automaton.start;
    // When each clock was last put to 0.
    let mut resets = vec![0; automaton.invariants[0].len()];
    for time in 0..=edges.len() {
        let invariant = &automaton.invariants[usize::from(location)];
        limits(&mut bounds, invariant, time, &resets);
        limits(&mut bounds, invariant, time + 1, &resets);
        bounds.push(Bound {
            time,
            other: time + 1,
            most: 0,
        });
        if let Some(&edge) = edges.get(time) {
            let edge = &automaton.edges[edge];
            limits(&mut bounds, &edge.guard, time + 1, &resets);
            for (clock, reset) in resets.iter_mut().enumerate() {
                if is_reset(edge, clock) {
                    *reset = time + 1;
                }
            }
            location = edge.to;
        }
    }
    bounds
}

/// Lowers times until all bounds hold, to and fro; none where that takes the start below 0, since then
/// there is no run.
fn latest(bounds: &[Bound], times: usize) -> Option<Vec<i64>> {
    let mut at = vec![i64::MAX / 2; times];
    at[0] = 0;
    let (mut lowered, mut to) = (true, true);
    while lowered {
        lowered = false;
        for i in 0..bounds.len() {
            let bound = &bounds[if to { i } else { bounds.len() - 1 - i }];
            let most = at[bound.other] + bound.most;
            if most < at[bound.time] {
                at[bound.time] = most;
                lowered = true;
            }
        }
        to = !to;
        if at[0] < 0 {
            return None;
        }
    }
    Some(at)
}

/// The earliest times are the latest ones with time turned round.
fn earliest(mut bounds: Vec<Bound>, times: usize) -> Option<Vec<i64>> {
    for bound in &mut bounds {
        std::mem::swap(&mut bound.time, &mut bound.other);
    }
    let at = latest(&bounds, times)?;
    Some(at.into_iter().map(|time| -time).collect())
}

fn run(edges: &[usize], times: &[i64]) -> Vec<i64> {
    let mut run = vec![2 * edges.len() as i64 + 2, times[1]];
    for (edge, pair) in edges.iter().zip(times[1..].windows(2)) {
        run.extend([*edge as i64, pair[1] - pair[0]]);
    }
    run
}

/// Two runs along these edges, unless there is none.
pub fn runs(automaton: &Judge, edges: &[usize]) -> Option<[Vec<i64>; 2]> {
    let (bounds, times) = (bounds(automaton, edges), edges.len() + 2);
    let latest = latest(&bounds, times)?;
    let earliest = earliest(bounds, times)?;
    Some([run(edges, &earliest), run(edges, &latest)])
}
