// What docs/FORMAT.md is held to by itself: its tables, its dumps and the lengths in its text
// agree.
use crate::document::{headings_with_offsets, table, Dump, Row, Sizes};
use crate::Format;

pub const SMALLEST: Sizes = Sizes::new(1, 1, 0, 19, 0);
const LARGEST: Sizes = Sizes::new(8, 64, 256, 21_259, 5_000);
const OTHER: Sizes = Sizes::new(3, 5, 7, 320, 9);

// The last row is the total, and has no offset.
pub fn total(text: &str, heading: &str, sizes: Sizes) -> usize {
    sizes.value(&table(text, heading).last().expect("a total")[1])
}

fn adds_up(rows: &[Row], sizes: Sizes) -> bool {
    let (last, fields) = rows.split_last().expect("a table");
    let mut before = 0;
    let offsets = fields.iter().all(|row| {
        let right = sizes.value(&row[0]) == before;
        before += sizes.value(&row[1]);
        right
    });
    offsets && last[0].is_empty() && last[2] == "total" && sizes.value(&last[1]) == before
}

impl Format {
    // Of the automaton in the dump, and of the run, which has one jump.
    pub fn sizes(&self) -> Sizes {
        let a = self.automaton.bytes();
        let edges = a[9] as usize * 256 + a[10] as usize;
        Sizes::new(a[5] as usize, a[6] as usize, edges, a.len(), 1)
    }

    pub fn tables_add_up(&self) -> bool {
        let found = headings_with_offsets(&self.text);
        let known = [
            "Automaton",
            "Limits",
            "Edge",
            "Slot",
            "Pair",
            "Run",
            "Cache",
            "Record",
        ];
        let all = [SMALLEST, LARGEST, OTHER, self.sizes()];
        found == known
            && known
                .iter()
                .all(|h| all.iter().all(|s| adds_up(&table(&self.text, h), *s)))
    }

    // Automata and records say their own length: its range goes with the smallest and the largest
    // total.
    pub fn lengths_are_ranged(&self) -> bool {
        ["Automaton", "Record"].iter().all(|heading| {
            let range = table(&self.text, heading)[0][3].replace(',', "");
            let [least, most] = [SMALLEST, LARGEST].map(|sizes| total(&self.text, heading, sizes));
            range == format!("{least} to {most}")
        })
    }

    pub fn versions_are_said(&self) -> bool {
        let says = |heading, version: u8| table(&self.text, heading)[1][3] == version.to_string();
        says("Automaton", self.automaton.bytes()[4]) && says("Cache", self.cache.bytes()[4])
    }

    pub fn dumps_are_counted(&self) -> bool {
        let size = |heading| total(&self.text, heading, self.sizes());
        [&self.automaton, &self.slot, &self.run, &self.cache]
            .iter()
            .all(|d| d.is_counted())
            && self.automaton.bytes().len() == size("Automaton")
            && self.slot.numbers().len() == size("Slot")
            && self.run.numbers().len() == size("Run")
            && self.cache.bytes().len() == size("Cache") + size("Record")
    }

    pub fn dumps_are_annotated(&self) -> bool {
        self.automaton.is_annotated() && self.cache.is_annotated()
    }

    pub fn lengths_are_said(&self) -> bool {
        let automaton = self.automaton.bytes().len();
        let sentences = [
            format!("card A, {automaton} bytes"),
            format!("in a store of {} numbers", self.slot.numbers().len()),
            format!("The {} bytes of an empty cache", self.cache.bytes().len()),
            format!(
                "one record of {} bytes",
                total(&self.text, "Record", self.sizes())
            ),
        ];
        sentences.iter().all(|s| self.text.contains(s))
    }

    // Every field of a table begins a line of its dump, in which the table's bytes begin at `from`.
    fn fields_begin_lines(&self, heading: &str, dump: &Dump, from: usize) -> bool {
        let rows = table(&self.text, heading);
        let fields = &rows[..rows.len() - 1];
        fields
            .iter()
            .all(|row| dump.begins_line(from + self.sizes().value(&row[0])))
    }

    pub fn fields_stand(&self) -> bool {
        let sizes = self.sizes();
        let edges = sizes.value("11 + 8nm");
        let limits = [11, 19, edges + 3];
        self.fields_begin_lines("Automaton", &self.automaton, 0)
            && limits
                .iter()
                .all(|at| self.fields_begin_lines("Limits", &self.automaton, *at))
            && self.fields_begin_lines("Edge", &self.automaton, edges)
            && self.fields_begin_lines("Slot", &self.slot, 0)
            && self.fields_begin_lines("Run", &self.run, 0)
            && self.fields_begin_lines("Cache", &self.cache, 0)
            && self.fields_begin_lines("Record", &self.cache, total(&self.text, "Cache", sizes))
    }

    pub fn refusals_are_listed(&self) -> bool {
        let numbers = table(&self.text, "Refusals")
            .into_iter()
            .map(|row| row[0].clone());
        numbers.eq((1..=14).map(|number: u32| number.to_string()))
    }
}
