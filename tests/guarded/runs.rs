//! Buffers for a run: with one of the automaton's, as it is or damaged, or with any numbers.

use crate::drawn::Dice;
use crate::library;

/// A store and a buffer in which nearly all searches and runs of what is drawn end.
const STORE: usize = 6_000;
const NUMBERS: usize = 200;

/// A number that is near one of a run, or as far from it as can be; also some that lead back to the
/// beginning where eight times as much drops what is above 64 bits.
fn wild(dice: &mut Dice) -> i64 {
    let near = i64::from(dice.range(0, 8));
    match dice.range(0, 7) {
        0..=2 => near - 2,
        3 => dice.pick(&[1_000_000, 1_000_001, 1 << 31, 1 << 32]) + near,
        4 => i64::MAX - near,
        5 => i64::MIN + near,
        6 => dice.pick(&[1 << 60, 1 << 61, -1 << 61, 1 << 62]) + near,
        _ => i64::from(dice.range(0, u32::MAX - 1)) << dice.range(0, 31),
    }
}

fn any(dice: &mut Dice, count: usize) -> Vec<i64> {
    (0..count).map(|_| wild(dice)).collect()
}

/// One that the library writes, where it is reached; else any numbers with a count that goes with them.
fn lawful(dice: &mut Dice, automaton: &[u8]) -> Vec<i64> {
    let mut run = vec![0; NUMBERS];
    if let Ok([0, ..]) = library::write_run(automaton, &mut [0; STORE], &mut run) {
        run.truncate(run[0] as usize);
        return run;
    }
    let jumps = dice.below(5);
    let mut run: Vec<i64> = any(dice, 2 * jumps + 2);
    run[0] = run.len() as i64;
    run
}

/// A count about as large as what is lent, or wild.
fn miscount(dice: &mut Dice, run: &mut [i64]) {
    let all = run.len() as i64;
    let near = dice.range(0, 4) as i64 - 2;
    let other = wild(dice);
    if let Some(count) = run.first_mut() {
        let (more, turned) = (count.wrapping_add(near), count.wrapping_neg());
        *count = dice.pick(&[all + near, more, turned, other]);
    }
}

pub fn drawn(dice: &mut Dice, automaton: &[u8]) -> Vec<i64> {
    let mut run = lawful(dice, automaton);
    let all = run.len();
    match dice.range(0, 11) {
        0..=2 => {}
        3..=4 => {
            let behind = 1 + dice.below(40);
            run.extend(any(dice, behind));
        }
        5 => run.truncate(all - 1),
        6 => run.truncate(dice.below(all)),
        7 => run[dice.below(all)] = wild(dice),
        8 => {
            let place = dice.below(all);
            run[place] = run[place].wrapping_add(1);
        }
        9 => miscount(dice, &mut run),
        10 => {
            let count = dice.below(20);
            run = any(dice, count);
            miscount(dice, &mut run);
        }
        _ => run.clear(),
    }
    run
}
