//! Targets that are thousands of jumps away, and refusal 9.

use crate::branches::{loose, strict, widened, Far};
use crate::calls::Lent;
use crate::deep;
use crate::drawn::Dice;
use crate::lengths::slot;
use crate::library;
use crate::rings::wheel;
use crate::tally::{Judged, Tally};
use crate::waits;
use crate::written::{every_length, searched, write};

/// The writer, under a small stack too, and the runs with the earliest and the latest jumps.
fn along(tally: &mut Tally, what: &str, (draft, jumps): Far) {
    let (bytes, mut dice) = (draft.bytes(), Dice::new(7));
    let store = (jumps + 2) * slot(&bytes);
    every_length(tally, &mut dice, what, &bytes, store);
    let searched = searched(tally, what, &Lent::new(&mut dice, &[], &bytes, store));
    let branch = searched.branch.unwrap_or_default();
    tally.check(branch.len() == jumps, || {
        format!("{what}: {} jumps, not {jumps}", branch.len())
    });
    let automaton = Judged::new(&bytes);
    let ends = waits::runs(&automaton.judge, &branch);
    tally.check(ends.is_some(), || format!("{what}: no run"));
    for mut run in ends.into_iter().flatten() {
        tally.must(what, &automaton, &run, true);
        let last = run.len() - 1;
        run[last - 2] += 1_000_000;
        tally.must(what, &automaton, &run, false);
    }
    let mut run = vec![0; 2 * jumps + 2];
    let reply =
        deep::with_small_stack(|| library::write_run(&bytes, &mut vec![0; store], &mut run));
    tally.check(matches!(reply, Ok([0, ..])), || {
        format!("{what}: {reply:?}")
    });
    tally.must(what, &automaton, &run, true);
}

pub fn branches(tally: &mut Tally) {
    along(tally, "strict", strict(5_000));
    along(tally, "loose", loose(10_001));
    along(tally, "strict, three clocks", widened(strict(2_003), 3));
    along(tally, "loose, five clocks", widened(loose(7_777), 5));
    along(tally, "loose, eight clocks", widened(loose(4_321), 8));
}

/// 9 leaves the buffer as it was, and the zones kept in the store.
pub fn piled_up(tally: &mut Tally) {
    let (bytes, mut dice) = (wheel(62, 1).bytes(), Dice::new(9));
    let before = Lent::new(&mut dice, &[], &bytes, 65_535 * slot(&bytes));
    let searched = searched(tally, "9", &before);
    let reply = searched.reply;
    tally.check(reply == 9, || format!("{reply}, not 9"));
    for length in [0, 2, 100] {
        let before = before.clone().running(&vec![-7; length]);
        let written = write(tally, "9", &before, &searched);
        tally.check(written.is_none(), || "9: a run".into());
    }
}
