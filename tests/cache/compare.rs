//! Holds the proved library's cache, document 01's shelf, to a second one: every reply, every byte
//! of the cache and of the form's buffer, every number of the store, and what lies around them. A
//! used length that needs more than four bytes is left out, since it takes 4 GiB. The last line is
//! 'N passed, M failed'.

mod automata;
// Those of runs are for others.
#[allow(dead_code)]
mod calls;
#[path = "../checks.rs"]
mod checks;
#[path = "../draft.rs"]
mod draft;
#[path = "../search/drawn.rs"]
mod drawn;
#[path = "../forms.rs"]
mod forms;
mod grown;
#[path = "../lengths.rs"]
mod lengths;
#[path = "../library.rs"]
mod library;
#[path = "../long.rs"]
mod long;
mod oracle;
mod order;
mod random;
#[path = "../rings.rs"]
mod rings;
#[path = "../search/oracle.rs"]
mod search;
#[path = "../search/table.rs"]
mod table;
mod tally;
mod told;
mod unsound;

use calls::Call;
use std::process::ExitCode;
use tally::{Tally, DROPPED, SPARE};

/// Every label that the comparison has to meet.
fn labels() -> Vec<String> {
    let mut labels: Vec<String> = vec!["LookUp not there".into()];
    labels.extend(DROPPED.map(String::from));
    for verdict in ["reached", "n/d", "any error", "in part"] {
        for call in ["Search", "LookUp", "Consult filed", "Consult searched"] {
            labels.push(format!("{} {}", call, verdict));
        }
    }
    for change in ["as drawn", "sorted", "without repeats"] {
        labels.push(format!("Canonical {}", change));
    }
    for call in ["LookUp", "Consult filed"] {
        labels.push(format!("{} reached{}", call, SPARE));
    }
    let numbers: [(Call, &[u32]); 7] = [
        (Call::Refusal, &[0, 1, 2, 3, 4, 5, 6, 7, 8]),
        (Call::Canonical, &[1, 2, 3, 4, 5, 6, 7, 8, 13]),
        (Call::Search, &[1, 2, 3, 4, 5, 6, 7, 8, 9, 10]),
        (Call::MakeEmpty, &[0, 12]),
        (Call::Sound, &[0, 11]),
        (Call::LookUp, &[1, 2, 3, 4, 5, 6, 7, 8, 11, 13]),
        (Call::Consult, &[1, 2, 3, 4, 5, 6, 7, 8, 9, 10, 11, 12, 13]),
    ];
    for (call, replies) in numbers {
        labels.extend(replies.iter().map(|reply| format!("{:?} {}", call, reply)));
    }
    labels
}

fn main() -> ExitCode {
    let mut tally = Tally::default();
    let parts: [fn(&mut Tally); 13] = [
        order::layout,
        order::empty,
        order::room,
        order::full,
        order::order,
        told::lengths,
        unsound::singly,
        unsound::out_of_order,
        unsound::cut,
        unsound::every_byte,
        grown::shared_beginnings,
        grown::past_three_bytes,
        grown::large_counts,
    ];
    for part in parts {
        part(&mut tally);
    }
    let random: [fn(&mut Tally, u64); 4] =
        [random::damage, random::noise, grown::large, grown::narrow];
    for round in long::rounds() {
        for part in random {
            part(&mut tally, round);
        }
    }
    tally.sum_up(labels())
}
