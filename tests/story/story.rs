//! Holds the library's writer and judge of runs to document 02's Change 2, by a judge written from the
//! documents alone and by a second search. Its last line is 'N passed, M failed'.

#[allow(dead_code)]
#[path = "../cache/automata.rs"]
mod automata;
#[path = "../answers/borders.rs"]
mod borders;
#[path = "../branches.rs"]
mod branches;
mod buffers;
#[allow(dead_code)]
#[path = "../cache/calls.rs"]
mod calls;
mod changed;
#[path = "../checks.rs"]
mod checks;
mod deep;
#[path = "../draft.rs"]
mod draft;
#[allow(dead_code)]
#[path = "../search/drawn.rs"]
mod drawn;
mod exact;
mod far;
#[path = "../forms.rs"]
mod forms;
mod hand;
mod judge;
#[path = "../lengths.rs"]
mod lengths;
#[path = "../library.rs"]
mod library;
#[path = "../long.rs"]
mod long;
mod mazes;
#[allow(dead_code)]
#[path = "../cache/oracle.rs"]
mod oracle;
#[path = "../rings.rs"]
mod rings;
#[path = "../search/oracle.rs"]
mod search;
#[path = "../search/spoilt.rs"]
mod spoilt;
#[path = "../search/table.rs"]
mod table;
mod tally;
mod waits;
mod written;

use std::process::ExitCode;
use tally::{Tally, DOES_NOT, PASSES};

/// What must be met, lest the checks say little; not 9, which takes too long to be met often.
fn labels() -> Vec<String> {
    let jumps = ["0", "1", "2", "3", "4 to 9", "10 or more"];
    let replies = [1, 2, 3, 4, 5, 6, 7, 8, 10, 14];
    let mut labels = [PASSES, DOES_NOT, written::RUN, written::HOLDS]
        .map(String::from)
        .to_vec();
    labels.extend([written::RUN_AGAIN, written::RUN_INSIDE].map(String::from));
    labels.extend(written::NARROW.map(written::narrow_label));
    labels.extend(changed::labels());
    labels.extend(jumps.map(|jumps| format!("{jumps} jumps")));
    labels.extend(replies.map(|reply| format!("WriteRun {reply}")));
    labels.extend((1..=8).map(|number| format!("Judge {number}")));
    labels.extend((1..=8).map(|clocks| format!("{clocks} clocks")));
    labels
}

fn main() -> ExitCode {
    let mut tally = Tally::default();
    let parts: [fn(&mut Tally); 9] = [
        exact::runs,
        exact::answers,
        hand::cards,
        hand::refused,
        buffers::every,
        written::documents,
        far::branches,
        far::piled_up,
        deep::small_stack,
    ];
    for part in parts {
        part(&mut tally);
    }
    let random: [fn(&mut Tally, u64); 2] = [written::random, changed::random];
    for round in long::rounds() {
        for part in random {
            part(&mut tally, round);
        }
    }
    tally.sum_up(labels())
}
