//! How much of a test's random part is run.

use std::env;
use std::ops::Range;

const LONG: u64 = 20;

/// The rounds of random cases, each with seeds of its own: the first, or 20 with LONG=1 in the
/// environment.
pub fn rounds() -> Range<u64> {
    match env::var("LONG").as_deref() {
        Ok("1") => 0..LONG,
        _ => 0..1,
    }
}
