//! Compares `root` with the machine's square root, bit for bit, and `root_digits` with document 02's count in whole numbers.
//!
//! `compare_root [count]`, where `count` is the number of random patterns. Fails if a root or a count differs, or if a count that can be told never
//! was, or none of an exact root among the subnormal numbers.

use host::programs::count_argument;
use host::random::Random;
use host::squares::{even_power, extreme_roots, odd_root, powers, scaled_pattern, LARGEST_ROOT};
use host::{digits, root, root_digits, CANONICAL_NAN};
use std::collections::BTreeMap;
use std::process::ExitCode;

const SEED: u64 = 0x526F_6F74;
const DEFAULT_COUNT: u64 = 50_000_000;
const MOST_SHOWN: u64 = 10;

const SIGN: u64 = 1 << 63;
const FRACTION: u64 = HIDDEN - 1;
/// The top bit of a significand of 53 bits, which a pattern leaves out.
const HIDDEN: u64 = 1 << 52;
const LARGEST_SUBNORMAL: u64 = 0x000F_FFFF_FFFF_FFFF;
const SMALLEST_NORMAL: u64 = 0x0010_0000_0000_0000;
const LARGEST_FINITE: u64 = 0x7FEF_FFFF_FFFF_FFFF;
const INFINITY: u64 = 0x7FF0_0000_0000_0000;
const QUIET: u64 = 1 << 51;

#[derive(Default)]
struct Comparison {
    compared: u64,
    roots_differ: u64,
    digits_differ: u64,
    /// How often each count of digits was due.
    told: BTreeMap<u64, u64>,
    exact_subnormals: u64,
}

impl Comparison {
    fn compare(&mut self, name: &str, patterns: impl IntoIterator<Item = u64>) {
        let before = (self.compared, self.roots_differ, self.digits_differ);
        for bits in patterns {
            self.compared += 1;
            self.compare_root(name, bits);
            self.compare_digits(name, bits);
        }
        let compared = self.compared - before.0;
        let roots = self.roots_differ - before.1;
        let counts = self.digits_differ - before.2;
        println!("{name}: {compared} patterns, {roots} roots and {counts} counts of digits differ");
    }

    fn compare_root(&mut self, name: &str, bits: u64) {
        let (answer, expected) = (root(bits), expected_root(bits));
        if answer != expected {
            self.roots_differ += 1;
            if self.roots_differ <= MOST_SHOWN {
                println!(
                    "{name}: the root of {bits:#018x} is {expected:#018x}, not {answer:#018x}"
                );
            }
        }
    }

    fn compare_digits(&mut self, name: &str, bits: u64) {
        let (answer, expected) = (root_digits(bits), digits::told(bits));
        *self.told.entry(expected).or_default() += 1;
        if bits <= LARGEST_SUBNORMAL && digits::EXACT.contains(&expected) {
            self.exact_subnormals += 1;
        }
        if answer != expected {
            self.digits_differ += 1;
            if self.digits_differ <= MOST_SHOWN {
                println!(
                    "{name}: of the root of {bits:#018x} {expected} digits are told, not {answer}"
                );
            }
        }
    }

    fn times_told(&self, count: u64) -> u64 {
        self.told.get(&count).copied().unwrap_or(0)
    }

    /// What is due and was never seen.
    fn missing(&self) -> Vec<String> {
        let due = digits::EXACT.chain([0, digits::INEXACT]);
        let unseen = due.filter(|count| self.times_told(*count) == 0);
        let counts = unseen.map(|count| format!("a count of {count}"));
        let subnormal = "a count of an exact root of a subnormal number".to_string();
        let subnormal = (self.exact_subnormals == 0).then_some(subnormal);
        counts.chain(subnormal).collect()
    }

    fn print(&self) {
        let exact = digits::EXACT.map(|count| self.times_told(count));
        println!(
            "root: {} patterns compared, {} differ",
            self.compared, self.roots_differ
        );
        println!(
            "digits: {} told, {} differ; exact {}, 53 {}, 0 {}; exact of subnormal numbers {}",
            self.compared,
            self.digits_differ,
            exact.sum::<u64>(),
            self.times_told(digits::INEXACT),
            self.times_told(0),
            self.exact_subnormals
        );
        let counts = digits::EXACT.map(|count| format!("{count}: {}", self.times_told(count)));
        println!(
            "exact, by the count: {}",
            counts.collect::<Vec<_>>().join(", ")
        );
    }

    /// Says what is missing, and whether all is well.
    fn verdict(&self) -> bool {
        let missing = self.missing();
        for what in &missing {
            println!("digits: FAILED, not seen: {what}");
        }
        self.roots_differ == 0 && self.digits_differ == 0 && missing.is_empty()
    }
}

fn expected_root(bits: u64) -> u64 {
    host::pattern(f64::from_bits(bits).sqrt())
}

fn with_neighbours(bits: u64) -> [u64; 3] {
    [bits.wrapping_sub(1), bits, bits.wrapping_add(1)]
}

fn special_values() -> Vec<u64> {
    let mut magnitudes = vec![0, 1, LARGEST_SUBNORMAL, SMALLEST_NORMAL, LARGEST_FINITE];
    magnitudes.extend([1f64.to_bits(), INFINITY, CANONICAL_NAN]);
    for payload in [1, 2, 0x0005_5555_5555_5555, QUIET - 1] {
        magnitudes.extend([INFINITY | payload, INFINITY | QUIET | payload]);
    }
    let signed = magnitudes.into_iter().flat_map(|bits| [bits, SIGN | bits]);
    signed.flat_map(with_neighbours).collect()
}

fn every_exponent(random: &mut Random) -> Vec<u64> {
    let mut patterns = Vec::new();
    for field in 0..=2047 {
        let mut fractions = vec![0, 1, FRACTION, 1 << 51];
        fractions.extend((0..8).map(|_| random.below(1 << 52)));
        for fraction in fractions {
            let bits = field << 52 | fraction;
            patterns.extend([bits, SIGN | bits]);
        }
    }
    patterns
}

fn subnormals(random: &mut Random) -> Vec<u64> {
    let mut patterns: Vec<u64> = (1..1 << 16).collect();
    for length in 1..=52 {
        // Ones and then zeros: from all ones to a power of two.
        patterns.extend((0..length).map(|zeros| (1u64 << length) - (1 << zeros)));
    }
    for length in 17..=52 {
        let top = 1u64 << (length - 1);
        patterns.extend((0..20_000).map(|_| top + random.below(top)));
    }
    patterns
}

fn squares(random: &mut Random) -> Vec<u64> {
    let mut patterns = Vec::new();
    let drawn = (0..500_000).map(|_| 1 + random.below(LARGEST_ROOT));
    let roots: Vec<u64> = (1..1 << 16).chain(drawn).collect();
    for n in roots {
        let power = even_power(random);
        for power in [0, power, power + 1] {
            patterns.extend(with_neighbours(scaled_pattern(n * n, power)));
        }
        if n < 1 << 26 {
            patterns.extend(with_neighbours(scaled_pattern(n * n, -1074)));
        }
    }
    patterns
}

/// Squares of roots with every number of digits, at every scale; at every other, where the power of two is odd, twice such squares.
fn squares_at_every_scale(random: &mut Random) -> Vec<u64> {
    let mut patterns = Vec::new();
    for digits in digits::EXACT {
        let drawn = (0..8).map(|_| odd_root(random, digits));
        for n in extreme_roots(digits).into_iter().chain(drawn) {
            let scaled = powers(n * n).map(|power| scaled_pattern(n * n, power));
            patterns.extend(scaled.flat_map(with_neighbours));
        }
    }
    patterns
}

fn trailing_zeros(random: &mut Random) -> Vec<u64> {
    let mut patterns = Vec::new();
    for zeros in 0..=52 {
        let top = HIDDEN >> zeros;
        for _ in 0..2_000 {
            let significand = (top + random.below(top)) << zeros;
            let power = even_power(random);
            for power in [power, power + 1] {
                patterns.extend(with_neighbours(scaled_pattern(significand, power)));
            }
        }
    }
    patterns
}

/// The numbers about (n + 1/2)^2 times a power of four, for n of 53 bits: two on each side.
fn about_midpoint(n: u64, random: &mut Random) -> [u64; 4] {
    let product = u128::from(n) * u128::from(n + 1);
    let shift = 75 - product.leading_zeros();
    let power = even_power(random) + i64::from(shift % 2);
    let down = scaled_pattern((product >> shift) as u64, power);
    [down - 1, down, down + 1, down + 2]
}

fn midpoints(random: &mut Random) -> Vec<u64> {
    let mut patterns = Vec::new();
    for _ in 0..500_000 {
        let n = HIDDEN + random.below(HIDDEN);
        patterns.extend(about_midpoint(n, random));
    }
    patterns
}

/// The n of 53 bits with (2n + 1)^2 = c modulo 2^54, for c = 1 modulo 8.
fn close_midpoints(c: u64) -> [u64; 2] {
    let mut r = 1u64;
    for k in 3..54 {
        // r * r = c modulo 2^k
        let rest = r.wrapping_mul(r).wrapping_sub(c);
        r += (rest >> k & 1) << (k - 1);
    }
    [r, r.wrapping_neg()].map(|r| HIDDEN | r >> 1 & FRACTION)
}

/// The hardest to round: a number of 53 bits that differs from (n + 1/2)^2 only by some c / 4.
fn closest_midpoints(random: &mut Random) -> Vec<u64> {
    let mut patterns = Vec::new();
    for j in -100_000i64..100_000 {
        for n in close_midpoints((8 * j + 1) as u64) {
            patterns.extend(about_midpoint(n, random));
        }
    }
    patterns
}

fn main() -> ExitCode {
    let count = match count_argument("random patterns", DEFAULT_COUNT) {
        Ok(count) => count,
        Err(message) => {
            eprintln!("compare_root: {message}");
            return ExitCode::from(2);
        }
    };
    let mut random = Random::new(SEED);
    let mut comparison = Comparison::default();
    comparison.compare("special values", special_values());
    comparison.compare("every exponent", every_exponent(&mut random));
    comparison.compare("subnormals", subnormals(&mut random));
    comparison.compare("squares", squares(&mut random));
    comparison.compare(
        "squares at every scale",
        squares_at_every_scale(&mut random),
    );
    comparison.compare("trailing zeros", trailing_zeros(&mut random));
    comparison.compare("midpoints", midpoints(&mut random));
    comparison.compare("closest midpoints", closest_midpoints(&mut random));
    comparison.compare("random", (0..count).map(|_| random.next_u64()));
    comparison.print();
    if comparison.verdict() {
        ExitCode::SUCCESS
    } else {
        ExitCode::FAILURE
    }
}
