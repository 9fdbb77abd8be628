//! The guards themselves, touched by children: were they open, the runs would show nothing.

use crate::checks::Checks;
use crate::child::{child_end, End};
use crate::memory::Memory;
use crate::pages::{Guard, Pages, GUARDS};
use std::process;

/// A touch that is not allowed ends a process by this.
const FAULT: End = End::Signal(11);
const FINE: End = End::Exit(0);

fn read(at: *mut u8) -> End {
    child_end().unwrap_or_else(|| {
        unsafe { at.read_volatile() };
        process::exit(0)
    })
}

fn write(at: *mut u8) -> End {
    child_end().unwrap_or_else(|| {
        unsafe { at.write_volatile(0) };
        process::exit(0)
    })
}

/// The byte before a slice or behind it cannot be touched. The slice can, but for writing once it
/// is sealed.
fn are_closed(pages: &mut Pages, guard: Guard) -> bool {
    let slice = [0_u8; 8];
    let at = pages.place(&slice, guard);
    let last = at.wrapping_add(slice.len() - 1);
    let outside = match guard {
        Guard::Before => at.wrapping_sub(1),
        Guard::Behind => last.wrapping_add(1),
    };
    let open = [outside, at, last].map(|at| (read(at), write(at)));
    pages.seal();
    let sealed = [at, last].map(|at| (read(at), write(at)));
    open == [(FAULT, FAULT), (FINE, FINE), (FINE, FINE)] && sealed == [(FINE, FAULT); 2]
}

pub fn check(checks: &mut Checks, memory: &mut Memory) {
    for (number, pages) in memory.all().into_iter().enumerate() {
        for guard in GUARDS {
            let closed = are_closed(pages, guard);
            checks.check(closed, || format!("{guard:?} pages {number}: no guard"));
        }
    }
}
