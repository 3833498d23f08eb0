//! Splitmix64, and what is drawn with it: the same seed gives the same numbers in every run and on every machine.

use std::f64::consts::{LN_2, LOG2_10};

pub struct Random {
    state: u64,
}

impl Random {
    pub fn new(seed: u64) -> Self {
        Random { state: seed }
    }

    pub fn next_u64(&mut self) -> u64 {
        self.state = self.state.wrapping_add(0x9E37_79B9_7F4A_7C15);
        let mut z = self.state;
        z = (z ^ (z >> 30)).wrapping_mul(0xBF58_476D_1CE4_E5B9);
        z = (z ^ (z >> 27)).wrapping_mul(0x94D0_49BB_1331_11EB);
        z ^ (z >> 31)
    }

    /// A number below `bound`, which is not 0.
    pub fn below(&mut self, bound: u64) -> u64 {
        ((u128::from(self.next_u64()) * u128::from(bound)) >> 64) as u64
    }

    pub fn flip(&mut self) -> bool {
        self.below(2) == 1
    }

    pub fn one_of<T: Copy>(&mut self, choices: &[T]) -> T {
        choices[self.below(choices.len() as u64) as usize]
    }

    pub fn between(&mut self, low: f64, high: f64) -> f64 {
        let fraction = self.below(1 << 53) as f64 / (1u64 << 53) as f64;
        low + (high - low) * fraction
    }

    /// Ten to a power between the two given.
    pub fn power_of_ten(&mut self, low: f64, high: f64) -> f64 {
        ten_to(self.between(low, high))
    }

    /// `x` or its opposite.
    pub fn signed(&mut self, x: f64) -> f64 {
        if self.flip() {
            -x
        } else {
            x
        }
    }

    /// `x`, as often as not, or one of the three floats next to it on either side.
    pub fn nudged(&mut self, x: f64) -> f64 {
        if self.flip() {
            return x;
        }
        let places = 1 + self.below(3) as i64;
        moved(x, if self.flip() { places } else { -places })
    }
}

/// Ten to this power, by Taylor's series: the library's powf may differ between machines.
pub fn ten_to(power: f64) -> f64 {
    let power = power * LOG2_10;
    let whole = power.floor();
    let x = (power - whole) * LN_2;
    let series = (1..=18)
        .rev()
        .fold(1.0, |sum, n| 1.0 + sum * x / f64::from(n));
    series * f64::from_bits(((whole as i64 + 1023) as u64) << 52)
}

/// The float that lies so many places above or below x.
pub fn moved(x: f64, places: i64) -> f64 {
    // From patterns to numbers in the order of the floats, and back: both zeros are 0.
    let turn = |n: i64| if n < 0 { i64::MIN.wrapping_sub(n) } else { n };
    f64::from_bits(turn(turn(x.to_bits() as i64) + places) as u64)
}
