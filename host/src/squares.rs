//! Squares among the floats, by the number of binary digits of their roots.

use crate::random::Random;
use std::ops::RangeInclusive;

/// The largest n with n * n below 2^53.
pub const LARGEST_ROOT: u64 = 94_906_265;

/// The pattern of a significand of at most 53 bits times a power of two of `powers`.
pub fn scaled_pattern(significand: u64, power: i64) -> u64 {
    let to_top = i64::from(significand.leading_zeros()) - 11;
    // A subnormal number has no room for more.
    let shift = to_top.min(power + 1074);
    let field = power + 1074 - shift;
    // The top bit of a significand of 53 bits adds the 1 by which a normal number's field is higher.
    ((field as u64) << 52) + (significand << shift)
}

/// The powers of two that leave an odd significand of at most 53 bits whole and finite.
pub fn powers(significand: u64) -> RangeInclusive<i64> {
    let bits = u64::BITS - significand.leading_zeros();
    -1074..=1024 - i64::from(bits)
}

/// An even power of two: it and the next keep every significand a finite normal number.
pub fn even_power(random: &mut Random) -> i64 {
    2 * random.below(997) as i64 - 1022
}

/// The least and the greatest odd number of so many binary digits, with a square of at most 53 bits.
fn odd_roots(digits: u64) -> RangeInclusive<u64> {
    let top = 1 << (digits - 1);
    top | 1..=LARGEST_ROOT.min(2 * top - 1)
}

/// An odd number of so many binary digits.
pub fn odd_root(random: &mut Random, digits: u64) -> u64 {
    let (least, greatest) = odd_roots(digits).into_inner();
    least + 2 * random.below((greatest - least) / 2 + 1)
}

/// The two least and the two greatest of them, and that with every other digit 1, where there are so many.
pub fn extreme_roots(digits: u64) -> Vec<u64> {
    let roots = odd_roots(digits);
    let (least, greatest) = (*roots.start(), *roots.end());
    let every_other = 0xAAAA_AAAA >> (32 - digits) | 1;
    let mut extremes = vec![
        least,
        least + 2,
        every_other,
        greatest.saturating_sub(2),
        greatest,
    ];
    extremes.retain(|root| roots.contains(root));
    extremes.sort();
    extremes.dedup();
    extremes
}

#[cfg(test)]
mod tests {
    use super::{extreme_roots, odd_root, powers, scaled_pattern, LARGEST_ROOT};
    use crate::digits;
    use crate::random::Random;

    #[test]
    fn patterns_at_both_ends() {
        assert_eq!(scaled_pattern(9, 0), 9f64.to_bits());
        assert_eq!(scaled_pattern(9, -1074), 9);
        assert_eq!(scaled_pattern(1, -1022), f64::MIN_POSITIVE.to_bits());
        assert_eq!(scaled_pattern((1 << 53) - 1, 971), f64::MAX.to_bits());
        assert_eq!(powers((1 << 53) - 1), -1074..=971);
    }

    #[test]
    fn roots_of_every_number_of_digits() {
        let random = &mut Random::new(1);
        for digits in digits::EXACT {
            let mut roots = extreme_roots(digits);
            roots.push(odd_root(random, digits));
            for root in roots {
                assert_eq!(root % 2, 1);
                assert_eq!(root.ilog2() as u64 + 1, digits);
                assert!(root <= LARGEST_ROOT);
            }
        }
    }
}
