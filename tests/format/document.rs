// What docs/FORMAT.md says, taken from its text: dumps, edges, tables, and the lengths in them.
use std::iter::Peekable;
use std::str::Chars;

// ---- dumps
pub struct Dump(Vec<Line>);

// An offset, the words that begin there, and what they are said to be.
struct Line {
    offset: usize,
    words: Vec<String>,
    said: String,
}

fn line(text: &str) -> Line {
    let (left, said) = text.split_once('#').expect("what a line says");
    let mut words = left.split_whitespace().map(String::from);
    let offset = words
        .next()
        .and_then(|w| w.parse().ok())
        .expect("an offset");
    Line {
        offset,
        words: words.collect(),
        said: said.into(),
    }
}

// The marked code block of a document.
pub fn dump(text: &str, mark: &str) -> Dump {
    let opening = format!("```{mark}");
    let after = text.lines().skip_while(|l| *l != opening).skip(1);
    Dump(after.take_while(|l| *l != "```").map(line).collect())
}

fn byte(word: &str) -> u8 {
    assert_eq!(word.len(), 2, "{word} is no byte");
    u8::from_str_radix(word, 16).expect("a byte")
}

impl Dump {
    pub fn bytes(&self) -> Vec<u8> {
        self.0
            .iter()
            .flat_map(|l| &l.words)
            .map(|w| byte(w))
            .collect()
    }

    pub fn numbers(&self) -> Vec<i32> {
        self.0
            .iter()
            .flat_map(|l| &l.words)
            .map(|w| w.parse().expect("a number"))
            .collect()
    }

    // Whether each offset is the number of words before it.
    pub fn is_counted(&self) -> bool {
        let mut before = 0;
        self.0.iter().all(|l| {
            let right = l.offset == before;
            before += l.words.len();
            right
        })
    }

    // Whether the last number that is said of at most four bytes is theirs.
    pub fn is_annotated(&self) -> bool {
        self.0.iter().filter(|l| l.words.len() <= 4).all(|l| {
            let value = l.words.iter().fold(0, |v: u32, w| v * 256 + byte(w) as u32);
            let said = l
                .said
                .split(|c: char| !c.is_ascii_digit())
                .filter_map(|w| w.parse().ok());
            said.last().map_or(true, |number: u32| number == value)
        })
    }

    pub fn begins_line(&self, offset: usize) -> bool {
        self.0.iter().any(|l| l.offset == offset)
    }
}

// ---- edges
// The first bytes of each, quoted as `01 00 01 ..`.
pub fn beginnings(text: &str) -> Vec<Vec<u8>> {
    let quoted = text
        .split('`')
        .filter_map(|words| words.strip_suffix(" .."));
    let bytes = |words: &str| words.split(' ').map(byte).collect();
    quoted.map(bytes).collect()
}

// ---- tables
pub type Row = Vec<String>;

// The rows of the first table under a heading.
pub fn table(text: &str, heading: &str) -> Vec<Row> {
    let under = text
        .lines()
        .skip_while(|l| l.trim_start_matches('#') != format!(" {heading}"));
    let rows = under
        .skip_while(|l| !l.starts_with('|'))
        .take_while(|l| l.starts_with('|'));
    let cells = |line: &str| {
        line.trim_matches('|')
            .split('|')
            .map(|c| c.trim().into())
            .collect()
    };
    rows.skip(2).map(cells).collect()
}

// The headings of all tables that have offsets.
pub fn headings_with_offsets(text: &str) -> Vec<&str> {
    let (mut heading, mut found) = ("", vec![]);
    for line in text.lines() {
        if line.starts_with('#') {
            heading = line.trim_start_matches('#').trim();
        }
        if line.starts_with("| offset") {
            found.push(heading);
        }
    }
    found
}

// ---- lengths
// The numbers of clocks, locations and edges, an automaton's length, and the jumps of a run.
#[derive(Clone, Copy)]
pub struct Sizes {
    pub n: usize,
    pub m: usize,
    pub edges: usize,
    pub length: usize,
    pub jumps: usize,
}

impl Sizes {
    pub const fn new(n: usize, m: usize, edges: usize, length: usize, jumps: usize) -> Sizes {
        Sizes {
            n,
            m,
            edges,
            length,
            jumps,
        }
    }

    // Of a length such as 11 + 8nm + E(3 + 8n).
    pub fn value(&self, length: &str) -> usize {
        let written: String = length.split_whitespace().collect();
        assert!(!written.is_empty(), "a length");
        let mut left = written.chars().peekable();
        let value = self.sum(&mut left);
        assert!(left.next().is_none(), "{length} is no length");
        value
    }

    fn sum(&self, left: &mut Peekable<Chars>) -> usize {
        let mut sum = self.product(left);
        while left.next_if_eq(&'+').is_some() {
            sum += self.product(left);
        }
        sum
    }

    fn product(&self, left: &mut Peekable<Chars>) -> usize {
        let mut product = 1;
        while let Some(factor) = self.factor(left) {
            let square = left.next_if_eq(&'²').is_some();
            product *= if square { factor * factor } else { factor };
        }
        product
    }

    fn factor(&self, left: &mut Peekable<Chars>) -> Option<usize> {
        let first = left.next_if(|c| !"+)".contains(*c))?;
        Some(match first {
            'n' => self.n,
            'm' => self.m,
            'E' => self.edges,
            'L' => self.length,
            'k' => self.jumps,
            '(' => {
                let sum = self.sum(left);
                assert_eq!(left.next(), Some(')'), "a bracket is closed");
                sum
            }
            _ => {
                let mut number = first.to_digit(10).expect("a digit") as usize;
                while let Some(digit) = left.next_if(char::is_ascii_digit) {
                    number = 10 * number + digit.to_digit(10).unwrap() as usize;
                }
                number
            }
        })
    }
}
