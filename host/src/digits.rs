//! Document 02, ask 4: how many binary digits of a square root are told. In whole numbers only, to compare the proved count with.

use std::ops::RangeInclusive;

/// The counts that an exact root can have: its square has at most 53 digits, and so the root at most 27.
pub const EXACT: RangeInclusive<u64> = 1..=27;
/// "told as 53 where none are"
pub const INEXACT: u64 = 53;

/// "how many binary digits it worked out from the leading 1: the fewest that, with zeros after them, are the exact root, told as 53 where none
/// are, and 0 for a zero, negative, infinite or NaN argument"
pub fn told(bits: u64) -> u64 {
    let Some((whole, power)) = positive_finite(bits) else {
        return 0;
    };
    let square = scaled(whole, power);
    // The first 53 digits of the root, exact or not.
    let root = square.isqrt();
    let are_exact = |digits: &u64| {
        let zeros = 53 - digits;
        let with_zeros = root >> zeros << zeros;
        with_zeros * with_zeros == square
    };
    (1..=53).find(are_exact).unwrap_or(INEXACT)
}

/// A positive finite number as a whole number times a power of two.
fn positive_finite(bits: u64) -> Option<(u64, i64)> {
    let (sign, field, fraction) = (bits >> 63, bits >> 52 & 2047, bits & ((1 << 52) - 1));
    match (sign, field) {
        (1, _) | (_, 2047) => None,
        (_, 0) if fraction == 0 => None,
        (_, 0) => Some((fraction, -1074)),
        _ => Some((1 << 52 | fraction, field as i64 - 1075)),
    }
}

/// The number times the power of four that makes it a whole number of 105 or 106 digits. Its root then has 53 before the point, the same as the
/// number's own but for where the point stands.
fn scaled(whole: u64, power: i64) -> u128 {
    let with_even_power = u128::from(whole) << (power & 1);
    let room = with_even_power.leading_zeros() - 22;
    with_even_power << (room - room % 2)
}

#[cfg(test)]
mod tests {
    use super::told;
    use crate::squares::{scaled_pattern, LARGEST_ROOT};

    fn told_of(argument: f64) -> u64 {
        told(argument.to_bits())
    }

    #[test]
    fn exact_roots() {
        // The root in binary digits: 1, 10, 0.1, 11, 1.1, 101, 110, 1010.
        let arguments = [1.0, 4.0, 0.25, 9.0, 2.25, 25.0, 36.0, 100.0];
        assert_eq!(arguments.map(told_of), [1, 1, 1, 2, 2, 3, 2, 3]);
    }

    #[test]
    fn inexact_roots() {
        let arguments = [2.0, 3.0, 8.0, 0.5, 18.0, 1.0 + f64::EPSILON, f64::MAX];
        assert_eq!(arguments.map(told_of), [53; 7]);
    }

    #[test]
    fn no_digits() {
        let without_sign = [
            0.0,
            f64::INFINITY,
            f64::NAN,
            f64::from_bits(0x7FF0 << 48 | 1),
        ];
        assert_eq!(without_sign.map(told_of), [0; 4]);
        assert_eq!(without_sign.map(|argument| told_of(-argument)), [0; 4]);
        let negative = [
            -1.0,
            -4.0,
            -2.0,
            -f64::MIN_POSITIVE,
            f64::from_bits(1 << 63 | 1),
        ];
        assert_eq!(negative.map(told_of), [0; 5]);
    }

    #[test]
    fn smallest_numbers() {
        // 2^-1074, twice, four and nine times that, and the greatest below 2^-1022: (2^52 - 1) times, beside the square (2^26 - 1)^2 times.
        let subnormal = [1, 2, 4, 9, (1 << 52) - 1, ((1 << 26) - 1) * ((1 << 26) - 1)];
        assert_eq!(subnormal.map(told), [1, 53, 1, 2, 53, 26]);
        // 2^-1022, and (2^26 + 1)^2 * 2^-1074.
        assert_eq!(told_of(f64::MIN_POSITIVE), 1);
        let root = (1 << 26) + 1;
        assert_eq!(told(scaled_pattern(root * root, -1074)), 27);
    }

    #[test]
    fn longest_roots() {
        assert_eq!(told_of((LARGEST_ROOT * LARGEST_ROOT) as f64), 27);
        // (2^27 - 1)^2 = 2^54 - 2^28 + 1 has 54 digits, and is no f64. The nearest is 2^28 * (2^26 - 1), and 2^26 - 1 is no square.
        let square = ((1u64 << 27) - 1) * ((1 << 27) - 1);
        assert_eq!(square as f64, ((1u64 << 54) - (1 << 28)) as f64);
        assert_eq!(told_of(square as f64), 53);
    }

    #[test]
    fn digits_as_they_are_written() {
        for root in 1..=4096u64 {
            let written = format!("{root:b}");
            let digits = written.trim_end_matches('0').len() as u64;
            assert_eq!(told_of((root * root) as f64), digits);
            assert_eq!(told_of((2 * root * root) as f64), 53);
            assert_eq!(told_of((root * root + 1) as f64), 53);
        }
    }
}
