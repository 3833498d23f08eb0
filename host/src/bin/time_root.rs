//! Times `root` against the machine's square root, and `root_digits` alone.

use host::programs::median;
use host::random::Random;
use host::squares::{even_power, odd_root, scaled_pattern};
use host::{root, root_digits};
use std::hint::black_box;
use std::ops::RangeInclusive;
use std::time::Instant;

const SEED: u64 = 0x5469_6D65;
const ARGUMENTS: usize = 65_536;
const PASSES: usize = 16;
const ROUNDS: usize = 31;
const CALLS: usize = ARGUMENTS * PASSES;

#[inline(never)]
extern "C" fn machine_root(bits: u64) -> u64 {
    f64::from_bits(bits).sqrt().to_bits()
}

/// The nanoseconds a call takes.
fn independent(root: impl Fn(u64) -> u64, arguments: &[u64]) -> f64 {
    let start = Instant::now();
    for _ in 0..PASSES {
        let mut sum = 0u64;
        for &bits in black_box(arguments) {
            sum = sum.wrapping_add(root(bits));
        }
        black_box(sum);
    }
    start.elapsed().as_nanos() as f64 / CALLS as f64
}

/// The same where the lowest bit of each answer goes into the next argument.
fn dependent(root: impl Fn(u64) -> u64, arguments: &[u64]) -> f64 {
    let start = Instant::now();
    for _ in 0..PASSES {
        let mut answer = 0;
        for &bits in black_box(arguments) {
            answer = root(bits ^ (answer & 1));
        }
        black_box(answer);
    }
    start.elapsed().as_nanos() as f64 / CALLS as f64
}

/// Times the two sides by turns.
fn report(name: &str, finder: impl Fn() -> f64, machine: impl Fn() -> f64) {
    let rounds = (0..ROUNDS).map(|_| (finder(), machine()));
    let (finder, machine): (Vec<f64>, Vec<f64>) = rounds.unzip();
    let (finder, machine) = (median(finder), median(machine));
    let ratio = finder / machine;
    println!("{name}: root {finder:.2} ns, machine {machine:.2} ns, ratio {ratio:.2}");
}

/// Times the count of the root's digits, which has no counterpart.
fn report_digits(name: &str, patterns: &[u64]) {
    let rounds = (0..ROUNDS).map(|_| independent(root_digits, patterns));
    let time = median(rounds.collect());
    println!("digits, {name}: root_digits {time:.2} ns");
}

/// Random patterns from that of `from` to below that of `to`.
fn patterns(random: &mut Random, from: f64, to: f64) -> Vec<u64> {
    let (from, to) = (from.to_bits(), to.to_bits());
    let drawn = (0..ARGUMENTS).map(|_| from + random.below(to - from));
    drawn.collect()
}

/// Squares of roots with so many binary digits, times even powers of two.
fn squares(random: &mut Random, digits: RangeInclusive<u64>) -> Vec<u64> {
    let (fewest, most) = digits.into_inner();
    let drawn = (0..ARGUMENTS).map(|_| {
        let digits = fewest + random.below(most - fewest + 1);
        let root = odd_root(random, digits);
        scaled_pattern(root * root, even_power(random))
    });
    drawn.collect()
}

fn main() {
    // Rust calls the archive's function through a pointer, and so this one too.
    let machine_root: extern "C" fn(u64) -> u64 = black_box(machine_root);
    let machine = move |bits| machine_root(bits);
    let mut random = Random::new(SEED);
    let finite = patterns(&mut random, 0.0, f64::INFINITY);
    let near = patterns(&mut random, 0.5, 4.0);
    let up_to_7 = squares(&mut random, 1..=7);
    let of_7 = squares(&mut random, 7..=7);
    let of_27 = squares(&mut random, 27..=27);
    println!("time per call, the median of {ROUNDS} rounds of {CALLS} calls for each side");
    let report_independent = |arguments: &str, patterns: &[u64]| {
        report(
            &format!("independent, {arguments}"),
            || independent(root, patterns),
            || independent(machine, patterns),
        );
    };
    report_independent("positive finite", &finite);
    report_independent("in [0.5, 4)", &near);
    report(
        "dependent, in [0.5, 4)",
        || dependent(root, &near),
        || dependent(machine, &near),
    );
    report_independent("squares of at most 7 digits", &up_to_7);
    report_independent("squares of 27 digits", &of_27);
    report_digits("positive finite", &finite);
    report_digits("squares of 7 digits", &of_7);
    report_digits("squares of 27 digits", &of_27);
}
