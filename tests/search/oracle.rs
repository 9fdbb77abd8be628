//! A second search, written from documents 01 and 02 alone, to hold the program against. It shares
//! nothing with the verified library: automata are copied out, zones grow on the heap, numbers are 64
//! bits wide.

// Each program asks for some of it.
#![allow(dead_code)]

use std::fmt;

const NO_UPPER: u32 = u32::MAX;
const SCALE: u32 = 1_000_000;
const MOST_ERRORS: i64 = 65_535;
const MOST_SLOTS: usize = 2_147_483_647;

#[derive(Clone, Copy)]
struct Limit {
    lo: u32,
    hi: u32,
}

struct Edge {
    from: usize,
    to: usize,
    reset: u8,
    guard: Vec<Limit>,
}

struct Automaton {
    clocks: usize,
    start: usize,
    target: usize,
    invariants: Vec<Vec<Limit>>,
    edges: Vec<Edge>,
}

struct Header {
    clocks: usize,
    locations: usize,
    edges: usize,
}

fn number(bytes: &[u8]) -> u32 {
    bytes.iter().fold(0, |n, &b| n << 8 | u32::from(b))
}

fn limits(bytes: &[u8]) -> Vec<Limit> {
    bytes
        .chunks(8)
        .map(|c| Limit {
            lo: number(&c[..4]),
            hi: number(&c[4..]),
        })
        .collect()
}

/// Refusals 1 to 5: past them every field stands where the formula says.
fn header(bytes: &[u8]) -> Result<Header, u8> {
    if bytes.len() < 11 {
        return Err(1);
    }
    if number(&bytes[..4]) as usize != bytes.len() {
        return Err(2);
    }
    if bytes[4] != 1 {
        return Err(3);
    }
    let (clocks, locations) = (usize::from(bytes[5]), usize::from(bytes[6]));
    let edges = number(&bytes[9..11]) as usize;
    if !(1..=8).contains(&clocks) || !(1..=64).contains(&locations) || edges > 256 {
        return Err(4);
    }
    if bytes.len() != 11 + 8 * clocks * locations + edges * (3 + 8 * clocks) {
        return Err(5);
    }
    Ok(Header {
        clocks,
        locations,
        edges,
    })
}

fn edge(bytes: &[u8]) -> Edge {
    Edge {
        from: usize::from(bytes[0]),
        to: usize::from(bytes[1]),
        reset: bytes[2],
        guard: limits(&bytes[3..]),
    }
}

impl Automaton {
    fn read(bytes: &[u8]) -> Result<Automaton, u8> {
        let h = header(bytes)?;
        let (row, first_edge) = (8 * h.clocks, 11 + 8 * h.clocks * h.locations);
        let automaton = Automaton {
            clocks: h.clocks,
            start: usize::from(bytes[7]),
            target: usize::from(bytes[8]),
            invariants: bytes[11..first_edge].chunks(row).map(limits).collect(),
            edges: bytes[first_edge..].chunks(3 + row).map(edge).collect(),
        };
        assert_eq!(automaton.edges.len(), h.edges);
        automaton.lawful().map(|()| automaton)
    }

    /// Refusals 6 to 8.
    fn lawful(&self) -> Result<(), u8> {
        let there = |location: usize| location < self.invariants.len();
        let ends = self.edges.iter().all(|e| there(e.from) && there(e.to));
        if !there(self.start) || !there(self.target) || !ends {
            return Err(6);
        }
        if self
            .edges
            .iter()
            .any(|e| usize::from(e.reset) >> self.clocks != 0)
        {
            return Err(7);
        }
        let bounded = |l: &Limit| l.lo <= SCALE && l.hi <= SCALE;
        let guards = |l: &Limit| l.lo <= SCALE && (l.hi <= SCALE || l.hi == NO_UPPER);
        let invariants = self.invariants.iter().flatten().all(bounded);
        if !invariants || !self.edges.iter().flat_map(|e| &e.guard).all(guards) {
            return Err(8);
        }
        Ok(())
    }
}

/// m + p × error.
#[derive(Clone, Copy, PartialEq, Eq)]
struct Pair {
    m: i64,
    p: i64,
}

impl Pair {
    const ZERO: Pair = Pair { m: 0, p: 0 };

    /// A limit, loosened by the error.
    fn loosened(m: i64) -> Pair {
        Pair { m, p: 1 }
    }

    fn at_most(self, other: Pair) -> bool {
        self.m < other.m || self.m == other.m && self.p <= other.p
    }

    fn plus(self, other: Pair) -> Pair {
        Pair {
            m: self.m + other.m,
            p: self.p + other.p,
        }
    }
}

/// A running fraction; none is 1/0, no limit.
#[derive(Clone, Copy)]
struct Fraction(Option<(i64, i64)>);

impl Fraction {
    /// What a comparison that chose one pair over another does to the fraction.
    fn compared(&mut self, chosen: Pair, other: Pair) {
        if chosen.p <= other.p {
            return;
        }
        let (n, d) = (other.m - chosen.m, chosen.p - other.p);
        let lower = match self.0 {
            None => true,
            Some((n0, d0)) => i128::from(n) * i128::from(d0) < i128::from(n0) * i128::from(d),
        };
        if lower {
            self.0 = Some((n, d));
        }
    }

    /// In lowest terms.
    fn given_out(self) -> (i64, i64) {
        match self.0 {
            None => (1, 0),
            Some((n, d)) => (n / gcd(n, d), d / gcd(n, d)),
        }
    }
}

/// Document 02's two: every comparison lowers the exact one, as document 01 has it; only what makes a
/// zone empty and containment tests that hold lower the safe one.
#[derive(Clone, Copy)]
struct Fractions {
    safe: Fraction,
    exact: Fraction,
}

impl Fractions {
    const NO_LIMIT: Fractions = Fractions {
        safe: Fraction(None),
        exact: Fraction(None),
    };

    /// A pair of a containment test that holds.
    fn contained(&mut self, new: Pair, kept: Pair) {
        self.safe.compared(new, kept);
        self.exact.compared(new, kept);
    }
}

fn gcd(a: i64, b: i64) -> i64 {
    if b == 0 {
        a
    } else {
        gcd(b, a % b)
    }
}

#[derive(Clone)]
struct Zone {
    side: usize,
    pairs: Vec<Pair>,
}

impl Zone {
    fn first(clocks: usize) -> Zone {
        let side = clocks + 1;
        Zone {
            side,
            pairs: vec![Pair::ZERO; side * side],
        }
    }

    fn at(&self, row: usize, column: usize) -> Pair {
        self.pairs[row * self.side + column]
    }

    fn put(&mut self, row: usize, column: usize, pair: Pair) {
        self.pairs[row * self.side + column] = pair;
    }

    fn lower(&mut self, row: usize, column: usize, by: Pair, exact: &mut Fraction) {
        let there = self.at(row, column);
        if there.at_most(by) {
            exact.compared(there, by);
        } else {
            exact.compared(by, there);
            self.put(row, column, by);
        }
    }

    fn meet(&mut self, limits: &[Limit], exact: &mut Fraction) {
        for (i, l) in limits.iter().enumerate() {
            if l.hi != NO_UPPER {
                self.lower(i + 1, 0, Pair::loosened(i64::from(l.hi)), exact);
            }
            self.lower(0, i + 1, Pair::loosened(-i64::from(l.lo)), exact);
        }
    }

    /// "At each diagonal pair of the round where this is seen with m below 0, the threshold of its final
    /// pair against (0, 0)."
    fn seen_empty(&self, safe: &mut Fraction) -> bool {
        let mut empty = false;
        for pair in (0..self.side).map(|i| self.at(i, i)) {
            if pair.m < 0 {
                safe.compared(pair, Pair::ZERO);
                empty = true;
            }
        }
        empty
    }

    /// None is an empty zone.
    fn reduce(mut self, fractions: &mut Fractions) -> Option<Zone> {
        for middle in 0..self.side {
            for cell in 0..self.pairs.len() {
                let (row, column) = (cell / self.side, cell % self.side);
                let by = self.at(row, middle).plus(self.at(middle, column));
                self.lower(row, column, by, &mut fractions.exact);
            }
            if self.seen_empty(&mut fractions.safe) {
                return None;
            }
        }
        Some(self)
    }

    fn reset(&self, clocks: u8) -> Zone {
        let source = |i: usize| {
            if i > 0 && clocks >> (i - 1) & 1 == 1 {
                0
            } else {
                i
            }
        };
        let mut after = self.clone();
        for row in 0..self.side {
            for column in 0..self.side {
                after.put(row, column, self.at(source(row), source(column)));
            }
        }
        after
    }

    fn enter(mut self, invariant: &[Limit], fractions: &mut Fractions) -> Option<Zone> {
        self.meet(invariant, &mut fractions.exact);
        let mut zone = self.reduce(fractions)?;
        for (i, l) in invariant.iter().enumerate() {
            zone.put(i + 1, 0, Pair::loosened(i64::from(l.hi)));
        }
        zone.reduce(fractions)
    }

    fn within(&self, other: &Zone) -> bool {
        self.pairs
            .iter()
            .zip(&other.pairs)
            .all(|(a, b)| a.at_most(*b))
    }
}

/// What a verdict comes with: the zones kept, and those "dropped by containment", which are counted "as
/// again when every pair equals that of the kept zone, and as inside otherwise".
#[derive(Clone, Copy, PartialEq, Eq, Debug, Default)]
pub struct Counts {
    pub zones: usize,
    pub again: usize,
    pub inside: usize,
}

/// The verdict carries the safe fraction.
#[derive(Clone, Copy, PartialEq, Eq, Debug)]
pub enum Outcome {
    Reached { counts: Counts },
    Holds { n: i64, d: i64, counts: Counts },
    HoldsAny { counts: Counts },
    Refused(u8),
}

impl Outcome {
    /// Kind, n, d, zones, again and inside, or a refusal.
    pub fn numbers(self) -> Result<[u64; 6], u8> {
        let (kind, n, d, counts) = match self {
            Outcome::Reached { counts } => (0, 0, 0, counts),
            Outcome::Holds { n, d, counts } => (1, n, d, counts),
            Outcome::HoldsAny { counts } => (1, 1, 0, counts),
            Outcome::Refused(number) => return Err(number),
        };
        let counts = [counts.zones, counts.again, counts.inside];
        let [zones, again, inside] = counts.map(|count| count as u64);
        Ok([kind, n as u64, d as u64, zones, again, inside])
    }
}

impl fmt::Display for Counts {
    fn fmt(&self, f: &mut fmt::Formatter) -> fmt::Result {
        let (zones, again, inside) = (self.zones, self.again, self.inside);
        write!(f, "zones {} again {} inside {}", zones, again, inside)
    }
}

impl fmt::Display for Outcome {
    fn fmt(&self, f: &mut fmt::Formatter) -> fmt::Result {
        match self {
            Outcome::Reached { counts } => write!(f, "reached {}", counts),
            Outcome::Holds { n, d, counts } => write!(f, "holds {}/{} {}", n, d, counts),
            Outcome::HoldsAny { counts } => write!(f, "holds any {}", counts),
            Outcome::Refused(number) => write!(f, "refused {}", number),
        }
    }
}

/// "The slot it came from and the edge taken, counted from 0, both −1 for the first zone."
#[derive(Clone, Copy)]
struct Origin {
    slot: i64,
    edge: i64,
}

const FIRST: Origin = Origin { slot: -1, edge: -1 };

/// Why a search stops before nothing is left to take.
enum Stop {
    Reached(Origin),
    Refused(u8),
}

struct Kept {
    location: usize,
    origin: Origin,
    zone: Zone,
}

impl Kept {
    /// Location, slot it came from, edge taken, then pairs row by row, m before p.
    fn slot(&self) -> Vec<i64> {
        let pairs = self.zone.pairs.iter().flat_map(|pair| [pair.m, pair.p]);
        let first = [self.location as i64, self.origin.slot, self.origin.edge];
        first.into_iter().chain(pairs).collect()
    }
}

struct Search<'a> {
    automaton: &'a Automaton,
    store: &'a mut [i32],
    kept: Vec<Kept>,
    /// The numbers of the kept zones by location, oldest first.
    at_location: Vec<Vec<usize>>,
    fractions: Fractions,
    counts: Counts,
    empty: usize,
}

impl Search<'_> {
    fn run(&mut self) -> Result<(), Stop> {
        let automaton = self.automaton;
        self.arrive(Zone::first(automaton.clocks), automaton.start, FIRST)?;
        let mut taken = 0;
        while taken < self.kept.len() {
            let from = self.kept[taken].location;
            for (number, edge) in automaton.edges.iter().enumerate() {
                if edge.from == from {
                    self.follow(taken, number, edge)?;
                }
            }
            taken += 1;
        }
        Ok(())
    }

    fn follow(&mut self, taken: usize, number: usize, edge: &Edge) -> Result<(), Stop> {
        let mut zone = self.kept[taken].zone.clone();
        let origin = Origin {
            slot: taken as i64,
            edge: number as i64,
        };
        zone.meet(&edge.guard, &mut self.fractions.exact);
        match zone.reduce(&mut self.fractions) {
            Some(zone) => self.arrive(zone.reset(edge.reset), edge.to, origin),
            None => self.drop_empty(),
        }
    }

    fn arrive(&mut self, zone: Zone, location: usize, origin: Origin) -> Result<(), Stop> {
        match zone.enter(&self.automaton.invariants[location], &mut self.fractions) {
            Some(zone) => self.judge(Kept {
                location,
                origin,
                zone,
            }),
            None => self.drop_empty(),
        }
    }

    fn drop_empty(&mut self) -> Result<(), Stop> {
        self.empty += 1;
        Ok(())
    }

    fn judge(&mut self, new: Kept) -> Result<(), Stop> {
        if new.location == self.automaton.target {
            return Err(Stop::Reached(new.origin));
        }
        let (kept, zone) = (&self.kept, &new.zone);
        if let Some(&old) = self.at_location[new.location]
            .iter()
            .find(|&&k| zone.within(&kept[k].zone))
        {
            let old = &kept[old].zone;
            for (a, b) in zone.pairs.iter().zip(&old.pairs) {
                self.fractions.contained(*a, *b);
            }
            if zone.pairs == old.pairs {
                self.counts.again += 1;
            } else {
                self.counts.inside += 1;
            }
            return Ok(());
        }
        if zone.pairs.iter().any(|pair| pair.p > MOST_ERRORS) {
            return Err(Stop::Refused(9));
        }
        self.keep(new)
    }

    fn keep(&mut self, new: Kept) -> Result<(), Stop> {
        let (numbers, slot) = (new.slot(), self.kept.len());
        let width = numbers.len();
        if slot >= (self.store.len() / width).min(MOST_SLOTS) {
            return Err(Stop::Refused(10));
        }
        for (cell, n) in self.store[slot * width..].iter_mut().zip(numbers) {
            *cell = i32::try_from(n).expect("a kept number has 32 bits");
        }
        self.at_location[new.location].push(slot);
        self.kept.push(new);
        self.counts.zones += 1;
        Ok(())
    }

    /// The edges from the first zone to one with this origin.
    fn branch(&self, mut origin: Origin) -> Vec<usize> {
        let mut edges = Vec::new();
        while let Ok(edge) = usize::try_from(origin.edge) {
            edges.push(edge);
            origin = self.kept[origin.slot as usize].origin;
        }
        edges.reverse();
        edges
    }
}

/// Refusals 1 to 8 alone.
pub fn refusal(bytes: &[u8]) -> Result<(), u8> {
    Automaton::read(bytes).map(|_| ())
}

/// How a search ended.
pub struct End {
    pub outcome: Outcome,
    /// The exact fraction, which "the bare search gives beside each verdict".
    pub exact: (i64, i64),
    /// Where it is reached the edges of the search's branch to the target.
    pub branch: Option<Vec<usize>>,
    /// How many zones came out empty, of which the answer tells nothing.
    pub empty: usize,
}

impl End {
    fn refused(number: u8) -> End {
        End {
            outcome: Outcome::Refused(number),
            exact: Fractions::NO_LIMIT.exact.given_out(),
            branch: None,
            empty: 0,
        }
    }

    fn of(search: &Search, stop: Result<(), Stop>) -> End {
        let (counts, fractions) = (search.counts, search.fractions);
        let mut branch = None;
        let outcome = match (stop, fractions.safe.given_out()) {
            (Err(Stop::Refused(number)), _) => Outcome::Refused(number),
            (Err(Stop::Reached(origin)), _) => {
                branch = Some(search.branch(origin));
                Outcome::Reached { counts }
            }
            (Ok(()), (_, 0)) => Outcome::HoldsAny { counts },
            (Ok(()), (n, d)) => Outcome::Holds { n, d, counts },
        };
        End {
            outcome,
            exact: fractions.exact.given_out(),
            branch,
            empty: search.empty,
        }
    }
}

/// The search of these bytes, with this store lent.
pub fn end(bytes: &[u8], store: &mut [i32]) -> End {
    let automaton = match Automaton::read(bytes) {
        Ok(automaton) => automaton,
        Err(number) => return End::refused(number),
    };
    let at_location = vec![Vec::new(); automaton.invariants.len()];
    let mut search = Search {
        automaton: &automaton,
        store,
        kept: Vec::new(),
        at_location,
        fractions: Fractions::NO_LIMIT,
        counts: Counts::default(),
        empty: 0,
    };
    let stop = search.run();
    End::of(&search, stop)
}

/// The program's answer for these bytes, with this store lent.
pub fn search(bytes: &[u8], store: &mut [i32]) -> Outcome {
    end(bytes, store).outcome
}

/// The same, and the exact fraction as the search ended.
pub fn search_with_exact(bytes: &[u8], store: &mut [i32]) -> (Outcome, (i64, i64)) {
    let end = end(bytes, store);
    (end.outcome, end.exact)
}

/// The same, and the branch to the target.
pub fn search_with_branch(bytes: &[u8], store: &mut [i32]) -> (Outcome, Option<Vec<usize>>) {
    let end = end(bytes, store);
    (end.outcome, end.branch)
}
