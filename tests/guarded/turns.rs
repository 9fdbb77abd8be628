//! A turn: all nine functions, called on what a seed draws.

use crate::calls::{self, Call, Lent};
use crate::checks::Checks;
use crate::child;
use crate::drawn::Dice;
use crate::heap;
use crate::inputs::Inputs;
use crate::memory::Memory;
use crate::met::Met;
use crate::pages::{shared_numbers, GUARDS};
use std::process::ExitCode;
use std::sync::atomic::{AtomicU64, Ordering};

/// More than any turn takes: a call that goes round for ever is a fault too.
const MOST_SECONDS: u32 = 30;

const CALLS: [Call; 9] = [
    Call::Refusal,
    Call::Canonical,
    Call::Search,
    Call::WriteRun,
    Call::Judge,
    Call::MakeEmpty,
    Call::Sound,
    Call::LookUp,
    Call::Consult,
];

/// What is being done, for the parent to tell if it was the last: the seed, and the numbers of the
/// call and of the guard. Past the last guard is plain memory, past the last call no call yet: what is lent
/// is being drawn, or with a seed of 0 no turn has begun.
pub struct Doing(&'static [AtomicU64; 3]);

impl Doing {
    pub fn nothing() -> Doing {
        let doing = Doing(shared_numbers());
        doing.now(0, CALLS.len(), GUARDS.len());
        doing
    }

    fn now(&self, seed: u64, call: usize, guard: usize) {
        let numbers = [seed, call as u64, guard as u64];
        for (place, number) in self.0.iter().zip(numbers) {
            place.store(number, Ordering::Relaxed);
        }
    }

    pub fn text(&self) -> String {
        let [seed, call, guard] = [0, 1, 2].map(|i| self.0[i].load(Ordering::Relaxed) as usize);
        let place = GUARDS.get(guard).map(|guard| format!("guard {guard:?}"));
        let place = place.unwrap_or_else(|| "plain memory".into());
        match CALLS.get(call) {
            Some(call) => format!("seed {seed}, {call:?}, {place}"),
            None => format!("seed {seed}, before its first call"),
        }
    }
}

pub struct Turns {
    checks: Checks,
    met: Met,
    inputs: Inputs,
}

impl Turns {
    pub fn new(checks: Checks, caches: usize) -> Turns {
        Turns {
            checks,
            met: Met::default(),
            inputs: Inputs::new(&mut Dice::new(1), caches),
        }
    }

    fn draw(&self, seed: u64) -> Lent {
        self.inputs.draw(&mut Dice::new(seed))
    }

    pub fn guarded(&mut self, memory: &mut Memory, doing: &Doing, seed: u64) {
        child::allow_seconds(MOST_SECONDS);
        doing.now(seed, CALLS.len(), GUARDS.len());
        let before = self.draw(seed);
        for (i, &call) in CALLS.iter().enumerate() {
            doing.now(seed, i, GUARDS.len());
            let mut plain = before.clone();
            let reply = calls::proved(call, &mut plain);
            self.met.count(call, reply, &before, &plain);
            for (j, &guard) in GUARDS.iter().enumerate() {
                doing.now(seed, i, j);
                let mut lent = before.clone();
                let got = Some(memory.call(call, &mut lent, guard));
                self.checks.check(got == reply && lent == plain, || {
                    format!("{}: {got:?}, not {reply:?}", doing.text())
                });
            }
        }
    }

    /// Calls for valgrind to watch.
    pub fn watched(&mut self, seed: u64) {
        let before = self.draw(seed);
        for call in CALLS {
            heap::compare(&mut self.checks, &format!("seed {seed}"), call, &before);
        }
    }

    pub fn met(&mut self) {
        self.met.sum_up(&mut self.checks);
    }

    pub fn sum_up(&self) -> ExitCode {
        self.checks.sum_up()
    }
}
