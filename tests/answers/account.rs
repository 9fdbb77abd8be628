//! Where the zones of a search have gone: each that enters, or comes out empty on its way, is kept, is
//! dropped as again, as inside or as empty, or meets the target.

use crate::lengths::{slot, BEFORE_PAIRS};
use crate::library::Findings;
use crate::oracle::End;

/// For each edge the location that it leaves.
fn left(automaton: &[u8]) -> Vec<i32> {
    let (clocks, locations) = (usize::from(automaton[5]), usize::from(automaton[6]));
    let edges = automaton[11 + 8 * clocks * locations..].chunks(3 + 8 * clocks);
    edges.map(|edge| edge[0].into()).collect()
}

/// The slot and the edge by which a branch ends, by what the slots tell. A slot comes after the one that
/// it came from.
fn last(slots: &[&[i32]], branch: &[usize]) -> Option<(usize, usize)> {
    let (&edge, before) = branch.split_last()?;
    let mut slot = 0;
    for &edge in before {
        let origin = [slot as i32, edge as i32];
        let mut later = slots.iter().skip(slot + 1);
        slot += 1 + later.position(|s| s[1..BEFORE_PAIRS] == origin)?;
    }
    Some((slot, edge))
}

/// The first zone, and one for each kept zone and each edge that leaves its location; of a branch to the
/// target only those up to its end. None where the slots tell no such branch.
fn entered(slots: &[&[i32]], left: &[i32], branch: Option<&[usize]>) -> Option<u64> {
    let all = (0..slots.len()).flat_map(|slot| (0..left.len()).map(move |edge| (slot, edge)));
    let mut taken = all.filter(|&(slot, edge)| left[edge] == slots[slot][0]);
    let taken = match branch {
        None => taken.count(),
        Some([]) => 0,
        Some(branch) => {
            let last = last(slots, branch)?;
            1 + taken.position(|taken| taken == last)?
        }
    };
    Some(1 + taken as u64)
}

/// How many zones a search tells of, with those that the second search found empty and the one that met
/// the target; and how many have entered.
pub fn of(automaton: &[u8], store: &[i32], findings: Findings, end: &End) -> (u64, Option<u64>) {
    let ([kind, _, _, zones], _, [again, inside]) = findings;
    let met = u64::from(kind == 0);
    let slots = store.chunks_exact(slot(automaton)).take(zones as usize);
    let slots: Vec<&[i32]> = slots.collect();
    let entered = entered(&slots, &left(automaton), end.branch.as_deref());
    (zones + again + inside + end.empty as u64 + met, entered)
}
