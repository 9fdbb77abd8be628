//! Holds the proved search to a second one: every answer with both fractions and the zones that are
//! dropped, and every number of the store, for damaged automata, limits at the ends of their range, stores
//! of all sizes, and large error counts. Its last line is 'N passed, M failed'.

mod account;
mod borders;
mod by_hand;
#[path = "../checks.rs"]
mod checks;
mod counts;
#[path = "../draft.rs"]
mod draft;
#[path = "../search/drawn.rs"]
mod drawn;
#[path = "../dropped.rs"]
mod dropped;
mod faults;
#[path = "../lengths.rs"]
mod lengths;
#[path = "../library.rs"]
mod library;
#[path = "../long.rs"]
mod long;
#[path = "../search/oracle.rs"]
mod oracle;
#[path = "../rings.rs"]
mod rings;
mod sizes;
#[path = "../search/table.rs"]
#[allow(dead_code)]
mod table;
mod tally;

use std::process::ExitCode;
use tally::Tally;

/// What must be met; not 9, which takes too long to be met often.
fn labels() -> Vec<String> {
    let limits = sizes::KINDS.map(|(label, _)| label);
    let verdicts = ["reached", "holds n/d", "holds any"];
    let fractions = [tally::LARGE, tally::BELOW, tally::REACHED_EXACT];
    let dropped = [
        tally::AGAIN,
        tally::INSIDE,
        tally::BOTH,
        tally::REACHED_AGAIN,
        tally::REACHED_INSIDE,
    ];
    let mut labels: Vec<String> = limits.map(String::from).to_vec();
    labels.extend(verdicts.map(String::from));
    labels.extend(fractions.map(String::from));
    labels.extend(dropped.map(String::from));
    labels.extend([1, 2, 3, 4, 5, 6, 7, 8, 10].map(|number| format!("refused {number}")));
    labels.extend((1..=8).map(|clocks| format!("{clocks} clocks")));
    labels
}

fn main() -> ExitCode {
    let mut tally = Tally::default();
    let parts: [fn(&mut Tally, u64); 5] = [
        faults::pairs,
        faults::subsets,
        faults::random_bytes,
        sizes::every_store,
        counts::drawn,
    ];
    for round in long::rounds() {
        for part in parts {
            part(&mut tally, round);
        }
    }
    let others: [fn(&mut Tally); 6] = [
        counts::border,
        counts::at_target,
        counts::contained,
        counts::lower_limits,
        by_hand::counts,
        by_hand::one_after_another,
    ];
    for part in others {
        part(&mut tally);
    }
    tally.sum_up(labels())
}
