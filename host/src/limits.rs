//! Document 02, asks 5 and 6: how long, and how near-meridian, the arcs and pieces were that were crossed.

use crate::outcomes::print_row;
use crate::reference::{CROSSED, LENGTHS};
use crate::rules::Reply;

/// The names of what lies between one of `LENGTHS` and the next.
const LENGTH_NAMES: [&str; LENGTHS.len() + 1] = [
    "less",
    "just under",
    "1 arcsec",
    "just over",
    "to 0.25 deg",
    "to 0.91 deg",
    "more",
];

/// The same of the sides of both limits: |y0| at most 1e-14, and below one arcsecond.
const SIDE_NAMES: [&str; 4] = ["both", "y0 alone", "short alone", "neither"];

/// How often each that is crossed was of each sort.
struct Table<const N: usize> {
    names: [&'static str; N],
    counts: [[u64; N]; CROSSED.len()],
}

impl<const N: usize> Table<N> {
    fn new(names: [&'static str; N]) -> Self {
        let counts = [[0; N]; CROSSED.len()];
        Table { names, counts }
    }

    fn count(&mut self, seen: &[[u32; N]; CROSSED.len()]) {
        let counts = self.counts.iter_mut().flatten();
        for (count, seen) in counts.zip(seen.iter().flatten()) {
            *count += u64::from(*seen);
        }
    }

    fn least(&self) -> u64 {
        self.counts.iter().flatten().copied().min().unwrap_or(0)
    }

    fn least_of(&self, added: &[[u32; N]; CROSSED.len()]) -> u64 {
        let counts = self.counts.iter().flatten().zip(added.iter().flatten());
        let added_to = counts.filter(|(_, added)| **added > 0);
        added_to.map(|(count, _)| *count).min().unwrap_or(u64::MAX)
    }

    fn print(&self, title: &str) {
        print_row(title, self.names);
        for (name, counts) in CROSSED.iter().zip(self.counts) {
            print_row(name, counts);
        }
    }

    fn missing(&self, of: &str) -> Vec<String> {
        let each = CROSSED
            .iter()
            .zip(&self.counts)
            .flat_map(|(crossed, counts)| {
                let unseen = self
                    .names
                    .iter()
                    .zip(counts)
                    .filter(|(_, count)| **count == 0);
                unseen.map(move |(name, _)| format!("{crossed}, {of}: {name}"))
            });
        each.collect()
    }
}

pub struct Limits {
    lengths: Table<{ LENGTHS.len() + 1 }>,
    sides: Table<4>,
}

impl Default for Limits {
    fn default() -> Self {
        Limits {
            lengths: Table::new(LENGTH_NAMES),
            sides: Table::new(SIDE_NAMES),
        }
    }
}

impl Limits {
    pub fn count(&mut self, reply: &Reply) {
        self.lengths.count(&reply.crossed.lengths);
        self.sides.count(&reply.crossed.sides);
    }

    /// How often that was seen which was seen least.
    pub fn least(&self) -> u64 {
        self.lengths.least().min(self.sides.least())
    }

    /// The same of what a reply adds to.
    pub fn least_of(&self, reply: &Reply) -> u64 {
        let of_length = self.lengths.least_of(&reply.crossed.lengths);
        of_length.min(self.sides.least_of(&reply.crossed.sides))
    }

    pub fn print(&self) {
        self.lengths.print("not near-meridian, by length");
        self.sides.print("about both limits: within which");
    }

    /// What is due and was never seen.
    pub fn missing(&self) -> Vec<String> {
        let lengths = self.lengths.missing("not near-meridian, of the length");
        [lengths, self.sides.missing("about both limits, within")].concat()
    }
}
