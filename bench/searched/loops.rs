// One location with 256 edges to itself, as the heavy ones, at other numbers of clocks. Of the sizes that were tried, some by
// which the search holds within the program's store. With one clock the first zone contains all others.
use super::Case;
use crate::heavy::Heavy;

fn case(clocks: u8, top: u32, width: u32, resets: u32) -> Case {
    let heavy = Heavy {
        clocks,
        top,
        width,
        resets,
        seed: 0,
    };
    Case::new(
        format!("loops, {}", super::clocks(clocks)),
        &heavy.automaton(),
    )
}

pub fn cases() -> Vec<Case> {
    vec![
        case(1, 60, 30, 40),
        case(2, 20, 3, 40),
        case(4, 2, 20, 80),
        case(5, 3, 40, 90),
        case(6, 3, 40, 92),
    ]
}
