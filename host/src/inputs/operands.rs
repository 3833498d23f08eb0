//! Changes of a job's operands, most of which get it refused.

use crate::commands::Command;
use crate::random::{moved, Random};

type Change = fn(&mut Random, &mut Command);

pub const CHANGES: [(&str, Change); 4] = [
    ("an operand at its range's end", at_an_end),
    ("an operand not finite", not_finite),
    ("a north or east byte of any value", any_byte),
    ("operands of any bits", any_bits),
];

/// To either end of its range, or the float next to it on either side.
fn at_an_end(random: &mut Random, job: &mut Command) {
    let floats = job.row().floats;
    let place = random.below(floats.len() as u64) as usize;
    let end = random.one_of(&floats[place].ends());
    job.floats[place] = moved(end, random.one_of(&[-1, 0, 1]));
}

/// Others may be out of range too.
fn not_finite(random: &mut Random, job: &mut Command) {
    if random.flip() {
        any_byte(random, job);
    }
    if random.flip() {
        at_an_end(random, job);
    }
    let place = random.below(job.row().floats.len() as u64) as usize;
    job.floats[place] = random.one_of(&NOT_FINITE);
}

/// Infinities, and NaNs of either sign, quiet and signalling.
pub const NOT_FINITE: [f64; 6] = [
    f64::INFINITY,
    f64::NEG_INFINITY,
    f64::from_bits(0x7FF8_0000_0000_0000),
    f64::from_bits(0xFFF8_0000_0000_0000),
    f64::from_bits(0x7FF0_0000_0000_0001),
    f64::from_bits(0xFFFF_FFFF_FFFF_FFFF),
];

fn any_byte(random: &mut Random, job: &mut Command) {
    if random.flip() {
        at_an_end(random, job);
    }
    let bytes = job.row().bytes;
    if bytes > 0 {
        let place = random.below(bytes as u64) as usize;
        job.bytes[place] = random.below(256) as u8;
    }
}

fn any_bits(random: &mut Random, job: &mut Command) {
    for place in 0..job.row().floats.len() {
        if random.flip() {
            job.floats[place] = f64::from_bits(random.next_u64());
        }
    }
}
