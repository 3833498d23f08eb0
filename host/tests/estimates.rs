//! The estimates that a root starts from. No proof says that an estimate is good, and the root does not need it: where one isn't, the digit loop works
//! out the same answer, only more slowly. So nothing else would notice a bad row of the table. The tests say that the estimates are good, and have the
//! few operations of `reciprocal_root` and reciprocal.rt once more for it: a slip there shows in the time alone.

use std::fs;
use std::thread;

const TABLE: &str = concat!(
    env!("CARGO_MANIFEST_DIR"),
    "/../crates/root_estimate/src/lib.rt"
);
const ROWS: usize = 64;
/// There are so many d in a row, and so many ways in which the fraction goes on after one.
const ALL_D: u64 = 1 << 32;
const ALL_ENDS: u64 = 1 << 15;
/// So many points of each row are tried, evenly apart, and the last one.
const STEPS: u64 = 1 << 14;
const THREADS: u64 = 4;

/// The rows, each with the four numbers of its curve.
fn table() -> [[u64; 4]; ROWS] {
    let text = fs::read_to_string(TABLE).expect("the table can be read");
    let rows = text
        .lines()
        .filter_map(|line| line.strip_prefix("    Curve("));
    let rows: Vec<[u64; 4]> = rows.map(curve).collect();
    rows.try_into().expect("the table has 64 rows")
}

fn curve(text: &str) -> [u64; 4] {
    let numbers = text.strip_suffix("),").expect("the row is closed");
    let numbers = numbers.split(", ").map(|number| number.parse::<u64>());
    let numbers: Vec<u64> = numbers.map(|number| number.expect("a number")).collect();
    numbers.try_into().expect("a curve has four numbers")
}

/// As `reciprocal_root` in that file. It is proved of every row there that nothing here comes below 0.
fn reciprocal([a, b, c, e]: [u64; 4], d: u64) -> u64 {
    let dd = d * d / ALL_D;
    let bent = (c - e * d / ALL_D) * dd / ALL_D;
    a - (b * d / ALL_D - bent)
}

/// The number of 53 or 54 digits with this d and this end of the fraction.
fn number(row: u64, d: u64, end: u64) -> u64 {
    let fraction = (row % 32) << 47 | d << 15 | end;
    // The first half of the table is for the numbers from 2 to 4.
    let doubled = u64::from(row < 32);
    (1 << 52 | fraction) << doubled
}

/// What reciprocal.rt works out for a number, with the names that it has there.
struct Tried {
    r: u64,
    s: u64,
    d: u64,
}

impl Tried {
    /// None where the square is above the number, which is the first test of reciprocal.rt.
    fn of(m: u64, r: u64) -> Option<Tried> {
        let s = ((m >> 22) * r) >> 32;
        let d = (m << 8).checked_sub(s * s)?;
        Some(Tried { r, s, d })
    }

    /// What the quotient leaves.
    fn u(&self) -> Option<u64> {
        let p = (self.d / 16 * self.r) >> 37;
        (self.d << 21).checked_sub(p * self.s)
    }

    /// The other three tests of reciprocal.rt.
    fn is_taken(&self) -> bool {
        self.d < 1 << 35 && self.u().is_some_and(|u| 2 * u <= 3 * self.s)
    }

    /// The same for this number and for each that differs from it in the end alone and has a lower one, hence the same r and s and a lower d. Where s * r
    /// is at most 2 ^ 62, p * s is at most d * 2 ^ 21. Then u is below the sum of three: what d * r / 2 ^ 41 would leave in place of p, which grows with d;
    /// s, for what is cut off from p; and s * r / 2 ^ 37, for what is cut off from d.
    fn is_taken_with_all_before(&self) -> bool {
        let product = self.s * self.r;
        if self.d >= 1 << 35 || product > 1 << 62 {
            return false;
        }
        let left = u128::from(self.d) * u128::from((1 << 62) - product);
        let most = (left >> 41) as u64 + 1 + self.s + (product >> 37) + 1;
        2 * most <= 3 * self.s
    }
}

#[test]
fn every_estimate_is_taken() {
    for (row, curve) in (0..).zip(table()) {
        let evenly = (0..STEPS).map(|step| step * (ALL_D / STEPS));
        for d in evenly.chain([ALL_D - 1]) {
            for end in [0, ALL_ENDS - 1] {
                let tried = Tried::of(number(row, d, end), reciprocal(curve, d));
                let taken = tried.is_some_and(|tried| tried.is_taken());
                assert!(taken, "row {row}, d {d}, end {end}");
            }
        }
    }
}

/// Of every finite number above zero: so no root takes the digit loop.
#[test]
#[ignore = "takes minutes"]
fn no_number_is_left_to_the_loop() {
    let table = table();
    thread::scope(|scope| {
        for part in 0..THREADS {
            scope.spawn(move || {
                for row in (0..ROWS as u64).filter(|row| row % THREADS == part) {
                    for d in 0..ALL_D {
                        let r = reciprocal(table[row as usize], d);
                        let first = Tried::of(number(row, d, 0), r);
                        let last = Tried::of(number(row, d, ALL_ENDS - 1), r);
                        let taken = last.is_some_and(|last| last.is_taken_with_all_before());
                        assert!(first.is_some() && taken, "row {row}, d {d}");
                    }
                }
            });
        }
    });
}
