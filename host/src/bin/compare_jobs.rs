//! Compares the finder with the reference and document 01's rules, byte for byte, on random, boundary and damaged job files; two arcs with document
//! 02's rule, and with plain geometry. Likewise what `finder depends` reports of short files.
//!
//! `compare_jobs [count]`, where `count` is the number of jobs (codes 03 to 07) in random files. Fails if an answer, a byte or a report differs,
//! if 200,000 of them or more don't bring about everything that they are made for, or if `finder_run` uses more stack than include/finder.h says.

use host::programs::count_argument;
use std::process::ExitCode;

const DEFAULT_COUNT: u64 = 1_000_000;

#[cfg(reference)]
fn compare(count: u64) -> ExitCode {
    if host::comparison::run(count) {
        ExitCode::SUCCESS
    } else {
        ExitCode::FAILURE
    }
}

#[cfg(not(reference))]
fn compare(_count: u64) -> ExitCode {
    host::programs::not_run("compare_jobs")
}

fn main() -> ExitCode {
    match count_argument("jobs", DEFAULT_COUNT) {
        Ok(count) => compare(count),
        Err(message) => {
            eprintln!("compare_jobs: {message}");
            ExitCode::from(2)
        }
    }
}
