// The automata whose searches are timed, in families: built by code or drawn from fixed seeds, and those of files.
mod chains;
mod conveyors;
mod fischer;
mod graphs;
mod loops;
mod meshes;
mod rings;
mod stored;
mod wheels;

use crate::draft::Draft;
use crate::lengths::slot;

// The program's store.
const STORE: usize = 16_384;

pub struct Case {
    pub name: String,
    pub automaton: Vec<u8>,
    // The numbers of its store.
    pub store: usize,
    // Each time is the best of so many, or more.
    pub repetitions: u32,
}

pub struct Family {
    pub name: &'static str,
    pub cases: fn() -> Vec<Case>,
}

const fn family(name: &'static str, cases: fn() -> Vec<Case>) -> Family {
    Family { name, cases }
}

pub static FAMILIES: [Family; 10] = [
    family("tiny", stored::tiny),
    family("chains", chains::cases),
    family("meshes", meshes::cases),
    family("conveyors", conveyors::cases),
    family("rings", rings::cases),
    family("wheels", wheels::cases),
    family("fischer", fischer::cases),
    family("loops", loops::cases),
    family("graphs", graphs::cases),
    family("heavy", stored::heavy),
];

fn clocks(number: u8) -> String {
    let plural = if number == 1 { "" } else { "s" };
    format!("{number} clock{plural}")
}

impl Case {
    fn new(name: impl Into<String>, automaton: &[u8]) -> Case {
        Case {
            name: name.into(),
            automaton: automaton.to_vec(),
            store: STORE,
            repetitions: 15,
        }
    }

    fn drafted(name: impl Into<String>, draft: &Draft) -> Case {
        Case::new(name, &draft.bytes())
    }

    fn room_for(self, zones: usize) -> Case {
        let store = zones * slot(&self.automaton);
        Case { store, ..self }
    }

    fn repeated(self, repetitions: u32) -> Case {
        Case {
            repetitions,
            ..self
        }
    }

    pub fn clocks(&self) -> u8 {
        self.automaton[5]
    }

    pub fn locations(&self) -> u8 {
        self.automaton[6]
    }

    pub fn edges(&self) -> u16 {
        u16::from_be_bytes([self.automaton[9], self.automaton[10]])
    }
}
