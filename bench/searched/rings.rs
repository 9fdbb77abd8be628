// Smaller siblings of the heavy ring.
use super::Case;
use crate::rings::counter;

fn case(locations: u8, zones: usize) -> Case {
    let name = format!("ring of {locations}, {zones} zones");
    Case::drafted(name, &counter(locations, zones as u32 - 1)).room_for(zones)
}

pub fn cases() -> Vec<Case> {
    vec![case(8, 1_000), case(60, 2_000)]
}
