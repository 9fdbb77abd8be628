//! canonical EXAMPLES: holds the library's canonical form, document 02's one order of edges, to a
//! second writer, and what is consulted by it to one record and one verdict. Its last line is 'N
//! passed, M failed'.

#[allow(dead_code)]
#[path = "../cache/automata.rs"]
mod automata;
#[path = "../answers/borders.rs"]
mod borders;
#[allow(dead_code)]
#[path = "../cache/calls.rs"]
mod calls;
#[path = "../checks.rs"]
mod checks;
#[allow(dead_code)]
#[path = "../runs/claims.rs"]
mod claims;
mod counts;
#[path = "../draft.rs"]
mod draft;
#[path = "../search/drawn.rs"]
mod drawn;
#[path = "../runs/explorer.rs"]
mod explorer;
#[path = "../forms.rs"]
mod forms;
#[path = "../lengths.rs"]
mod lengths;
#[path = "../library.rs"]
mod library;
#[path = "../long.rs"]
mod long;
mod offices;
#[allow(dead_code)]
#[path = "../cache/oracle.rs"]
mod oracle;
mod room;
mod same_runs;
#[path = "../search/oracle.rs"]
mod search;
mod shuffles;
#[path = "../runs/small.rs"]
mod small;
#[path = "../search/spoilt.rs"]
mod spoilt;
#[path = "../search/table.rs"]
mod table;
#[path = "../cache/tally.rs"]
mod tally;
mod writer;

use calls::Call;
use std::process::ExitCode;
use tally::{Tally, DROPPED, SPARE};

/// What must be met, lest the checks say little.
fn labels() -> Vec<String> {
    let changes = ["as drawn", "sorted", "without repeats"];
    let verdicts = ["reached", "n/d", "any error"];
    let mut labels: Vec<String> = vec![shuffles::DIFFER.into(), shuffles::MANY_DIFFER.into()];
    labels.extend(same_runs::LABELS.map(String::from));
    labels.extend(DROPPED.map(String::from));
    labels.extend(changes.map(|change| format!("Canonical {change}")));
    labels.push(format!("Canonical without repeats{SPARE}"));
    labels.extend(verdicts.map(|verdict| format!("Search {verdict}")));
    for call in ["LookUp", "Consult filed", "Consult searched"] {
        labels.extend(verdicts.map(|verdict| format!("{call} {verdict}")));
        labels.extend(verdicts.map(|verdict| format!("{call} {verdict}{SPARE}")));
    }
    let numbers: [(Call, &[u32]); 3] = [
        (Call::Canonical, &[1, 2, 3, 4, 5, 6, 7, 8, 13]),
        (Call::LookUp, &[1, 2, 3, 4, 5, 6, 7, 8, 11, 13]),
        (Call::Consult, &[1, 2, 3, 4, 5, 6, 7, 8, 10, 11, 12, 13]),
    ];
    for (call, replies) in numbers {
        labels.extend(replies.iter().map(|reply| format!("{call:?} {reply}")));
    }
    labels
}

fn main() -> ExitCode {
    let folder = std::env::args().nth(1).expect("the folder of the examples");
    let mut tally = Tally::default();
    offices::example(&mut tally, &folder);
    counts::few(&mut tally);
    counts::many(&mut tally);
    room::every_length(&mut tally);
    shuffles::every_list(&mut tally);
    shuffles::many(&mut tally);
    let random: [fn(&mut Tally, u64); 3] = [writer::random, shuffles::random, same_runs::random];
    for round in long::rounds() {
        for part in random {
            part(&mut tally, round);
        }
    }
    tally.sum_up(labels())
}
