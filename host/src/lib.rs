//! The functions proved in Rattle, as Rust calls them, and what they are compared with.

// Document 02's rule for two arcs stands in either build of the reference.
#![allow(clippy::duplicate_mod)]

pub mod angles;
pub mod commands;
#[cfg(reference)]
pub mod comparison;
#[cfg(reference)]
pub mod crossings;
pub mod digits;
#[cfg(reference)]
pub mod example;
pub mod finder;
#[cfg(reference)]
pub mod inputs;
#[cfg(reference)]
pub mod job_files;
#[cfg(reference)]
pub mod limits;
#[cfg(reference)]
pub mod outcomes;
pub mod patterns;
#[cfg(reference)]
pub mod plain_reference;
pub mod program;
pub mod programs;
#[cfg(reference)]
pub mod quarters;
pub mod random;
#[cfg(reference)]
pub mod reference;
#[cfg(reference)]
pub mod rules;
#[cfg(reference)]
pub mod second_tries;
#[cfg(reference)]
pub mod signs;
pub mod squares;
#[cfg(reference)]
pub mod stored_answers;
#[cfg(reference)]
pub mod timing;
#[cfg(reference)]
pub mod turns;

/// The pattern of every NaN that a function proved in Rattle answers.
pub const CANONICAL_NAN: u64 = 0x7FF8_0000_0000_0000;

unsafe extern "C" {
    fn finder_root(bits: u64) -> u64;
    fn finder_root_digits(bits: u64) -> u64;
}

/// The pattern of the square root of the f64 with the pattern `bits`.
#[inline]
pub fn root(bits: u64) -> u64 {
    // SAFETY: it takes every pattern, and reaches no memory but its own.
    unsafe { finder_root(bits) }
}

/// How many binary digits of that root are told: the fewest that, with zeros after them, are the exact root, 53 where none are, and 0 for an
/// argument that isn't positive and finite.
#[inline]
pub fn root_digits(bits: u64) -> u64 {
    // SAFETY: as for the root.
    unsafe { finder_root_digits(bits) }
}

/// The pattern of a float, where all NaNs have one.
pub fn pattern(x: f64) -> u64 {
    if x.is_nan() {
        CANONICAL_NAN
    } else {
        x.to_bits()
    }
}
