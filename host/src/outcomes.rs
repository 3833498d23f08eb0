//! How often each outcome was seen, and those that a long run must have seen.

use crate::commands::{
    ALLOWANCE, ARC, EQUATORIAL_CONE, PARALLEL, POLAR_CONE, PRECISION, SLOT, TWO_ARCS,
};
use std::fmt::Display;

/// What is counted by kinds: the slots of arcs with status 0, then the other jobs.
const ROWS: [&str; 9] = [
    "south cap, first",
    "south cap, second",
    "equator",
    "north cap, first",
    "north cap, second",
    "equatorial cone",
    "polar cone",
    "parallel",
    "two arcs",
];

/// The kinds that each row can have.
const KINDS: [&[usize]; ROWS.len()] = [
    &[0, 1, 2, 3, 4, 5],
    &[0, 1, 2, 3, 4, 5],
    &[0, 1, 3, 4, 5, 6, 7],
    &[0, 1, 2, 3, 4, 5],
    &[0, 1, 2, 3, 4, 5],
    &[2, 3],
    &[2, 3],
    &[3, 4, 5],
    &[3, 5],
];

/// The statuses that each code can get.
const STATUSES: [(u8, &[u8]); 7] = [
    (PRECISION, &[0, 7]),
    (ALLOWANCE, &[0]),
    (ARC, &[0, 6, 7, 9, 10]),
    (EQUATORIAL_CONE, &[0, 6, 7, 8, 9]),
    (POLAR_CONE, &[0, 6, 7, 8, 9]),
    (PARALLEL, &[0, 7, 9]),
    (TWO_ARCS, &[0, 7, 9, 12]),
];

#[derive(Default)]
pub struct Outcomes {
    kinds: [[u64; 8]; ROWS.len()],
    /// By code and status.
    statuses: [[u64; 13]; 8],
    /// Files by their number.
    numbers: [u64; 6],
    two_walks: u64,
    two_points: u64,
}

impl Outcomes {
    pub fn count_file(&mut self, number: u8) {
        if let Some(count) = self.numbers.get_mut(usize::from(number)) {
            *count += 1;
        }
    }

    /// Counts the reply to one command.
    pub fn count(&mut self, reply: &[u8]) {
        let [code, status] = [reply[0], reply[1]].map(usize::from);
        let counts = self.statuses.get_mut(code);
        if let Some(count) = counts.and_then(|counts| counts.get_mut(status)) {
            *count += 1;
        }
        for (row, kind) in kinds_of(reply) {
            if let Some(count) = self.kinds[row].get_mut(kind) {
                *count += 1;
            }
        }
        if [code, status] == [usize::from(ARC), 0] {
            self.count_caps([0, 1, 3, 4].map(|slot| reply[2 + slot * SLOT]));
        }
    }

    fn count_caps(&mut self, [south1, south2, north1, north2]: [u8; 4]) {
        for cap in [[south1, south2], [north1, north2]] {
            self.two_walks += u64::from(cap.iter().all(|kind| *kind >= 2));
            self.two_points += u64::from(cap == [3; 2]);
        }
    }

    /// How often the kind has been seen that was seen least of those that can be.
    pub fn least_of_a_kind(&self) -> u64 {
        let counts = KINDS.iter().zip(self.kinds);
        let counts = counts.flat_map(|(kinds, counts)| kinds.iter().map(move |kind| counts[*kind]));
        counts.min().unwrap_or(0)
    }

    /// The same of the kinds of one reply.
    pub fn least_of(&self, reply: &[u8]) -> u64 {
        let counts = kinds_of(reply).map(|(row, kind)| self.kinds[row][kind]);
        counts.min().unwrap_or(u64::MAX)
    }

    fn caps(&self) -> [(&'static str, u64); 2] {
        [
            ("caps with two walks", self.two_walks),
            ("caps with two points", self.two_points),
        ]
    }

    pub fn print(&self) {
        print_row(
            "",
            [0, 1, 2, 3, 4, 5, 6, 7].map(|kind| format!("kind {kind}")),
        );
        for (name, counts) in ROWS.iter().zip(self.kinds) {
            print_row(name, counts);
        }
        for (name, count) in self.caps() {
            print_row(name, [count]);
        }
        // No job has the status 11, which is the error of the program `patterns`.
        let statuses = [0, 6, 7, 8, 9, 10, 12];
        print_row("", statuses.map(|status| format!("status {status}")));
        for (code, _) in STATUSES {
            let counts = statuses.map(|status| self.statuses[usize::from(code)][status]);
            print_row(&format!("code {code:02x}"), counts);
        }
        print_row(
            "",
            [0, 1, 2, 3, 4, 5].map(|number| format!("number {number}")),
        );
        print_row("job files", self.numbers);
    }

    /// What is due and was never seen.
    pub fn missing(&self) -> Vec<String> {
        let mut missing = Vec::new();
        for (row, name) in ROWS.into_iter().enumerate() {
            let unseen = KINDS[row]
                .iter()
                .filter(|kind| self.kinds[row][**kind] == 0);
            missing.extend(unseen.map(|kind| format!("{name}, kind {kind}")));
        }
        for (code, statuses) in STATUSES {
            let counts = self.statuses[usize::from(code)];
            let unseen = statuses
                .iter()
                .filter(|status| counts[usize::from(**status)] == 0);
            missing.extend(unseen.map(|status| format!("code {code:02x}, status {status}")));
        }
        let numbers = (0..6).filter(|number| self.numbers[*number] == 0);
        missing.extend(numbers.map(|number| format!("a job file, number {number}")));
        let caps = self.caps().into_iter().filter(|(_, count)| *count == 0);
        missing.extend(caps.map(|(name, _)| name.to_string()));
        missing
    }
}

/// The rows of a reply with status 0, and its kinds there.
fn kinds_of(reply: &[u8]) -> impl Iterator<Item = (usize, usize)> + '_ {
    let rows = match (reply[0], reply[1]) {
        (ARC, 0) => 0..5,
        (EQUATORIAL_CONE, 0) => 5..6,
        (POLAR_CONE, 0) => 6..7,
        (PARALLEL, 0) => 7..8,
        (TWO_ARCS, 0) => 8..9,
        _ => 0..0,
    };
    let kinds = reply.iter().skip(2).step_by(SLOT).copied();
    rows.zip(kinds.map(usize::from))
}

pub fn print_row<T: Display, const N: usize>(name: &str, columns: [T; N]) {
    let columns = columns.map(|column| format!("{column:>12}"));
    println!("{name:<48}{}", columns.concat());
}
