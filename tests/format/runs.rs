// The run in docs/FORMAT.md, by the library: it is one of document 01's card B, which is the dump's
// automaton with another guard.
use crate::library::{judge, search, write_run, Verdict};
use crate::{Format, NUMBER, RUN as BEFORE};

// Document 01's card B is reached, with one zone.
const REACHED: Verdict = [0, 0, 0, 1];

impl Format {
    // The edge asks for 5 and not for 7.
    fn reached(&self) -> Vec<u8> {
        let mut automaton = self.automaton.bytes();
        let lo = self.sizes().value("11 + 8nm") + 6;
        assert_eq!(automaton[lo], 7, "the guard's lo");
        automaton[lo] = 5;
        automaton
    }

    fn dumped_run(&self) -> Vec<i64> {
        self.run.numbers().into_iter().map(i64::from).collect()
    }

    // As it is and with numbers behind it, but not cut, nor of the dump's own automaton.
    pub fn run_is_judged(&self) -> bool {
        let (automaton, run) = (self.reached(), self.dumped_run());
        let followed = [&run[..], &[BEFORE; 3]].concat();
        [&run, &followed]
            .iter()
            .all(|r| judge(&automaton, r) == Ok(true))
            && (0..run.len()).all(|end| judge(&automaton, &run[..end]) == Ok(false))
            && judge(&self.automaton.bytes(), &run) == Ok(false)
    }

    // The last wait is the writer's choice.
    pub fn run_is_written(&self) -> bool {
        let (automaton, dumped) = (self.reached(), self.dumped_run());
        let (first, behind) = (dumped.len() - 1, dumped.len());
        let mut run = vec![BEFORE; behind + 3];
        let mut store = vec![NUMBER; self.slot.numbers().len()];
        write_run(&automaton, &mut store, &mut run) == Ok(REACHED)
            && run[..first] == dumped[..first]
            && run[behind..] == [BEFORE; 3]
            && judge(&automaton, &run) == Ok(true)
    }

    // 14: a number too few. The store is as the search leaves it.
    pub fn run_is_too_long(&self) -> bool {
        let (automaton, mut run) = (self.reached(), vec![BEFORE; self.run.numbers().len() - 1]);
        let mut stores = [(); 2].map(|_| vec![NUMBER; self.slot.numbers().len() + 3]);
        write_run(&automaton, &mut stores[0], &mut run) == Err(14)
            && run.iter().all(|x| *x == BEFORE)
            && search(&automaton, &mut stores[1]) == Ok(REACHED)
            && stores[0] == stores[1]
    }

    // Where the automaton holds there is no run.
    pub fn no_run_is_written(&self) -> bool {
        let mut run = vec![BEFORE; self.run.numbers().len()];
        let mut store = vec![NUMBER; self.slot.numbers().len()];
        write_run(&self.automaton.bytes(), &mut store, &mut run) == Ok(crate::HOLDS)
            && run.iter().all(|x| *x == BEFORE)
            && store == self.slot.numbers()
    }
}
