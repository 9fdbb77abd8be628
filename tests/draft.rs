//! Automata to be written, be they lawful or not.

/// The hi of a guard that has none.
pub const NO_UPPER: u32 = u32::MAX;

/// Lo and hi of one clock.
pub type Limit = (u32, u32);

#[derive(Clone)]
pub struct Edge {
    pub from: u8,
    pub to: u8,
    pub reset: u8,
    pub guard: Vec<Limit>,
}

#[derive(Clone)]
pub struct Draft {
    pub start: u8,
    pub target: u8,
    pub invariants: Vec<Vec<Limit>>,
    pub edges: Vec<Edge>,
}

fn write_limits(bytes: &mut Vec<u8>, limits: &[Limit]) {
    for (lo, hi) in limits {
        bytes.extend(lo.to_be_bytes());
        bytes.extend(hi.to_be_bytes());
    }
}

/// Makes the length field tell the number of bytes, so that a damage further on is what is refused.
pub fn recount(bytes: &mut [u8]) {
    let length = bytes.len() as u32;
    bytes[..4].copy_from_slice(&length.to_be_bytes());
}

impl Draft {
    pub fn bytes(&self) -> Vec<u8> {
        let clocks = self.invariants[0].len() as u8;
        let mut bytes = vec![0, 0, 0, 0, 1, clocks, self.invariants.len() as u8];
        bytes.extend([self.start, self.target]);
        bytes.extend((self.edges.len() as u16).to_be_bytes());
        for limits in &self.invariants {
            write_limits(&mut bytes, limits);
        }
        for edge in &self.edges {
            bytes.extend([edge.from, edge.to, edge.reset]);
            write_limits(&mut bytes, &edge.guard);
        }
        recount(&mut bytes);
        bytes
    }
}
