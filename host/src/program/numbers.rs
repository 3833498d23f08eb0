//! Floats as text, from and to their bits: a NaN keeps its payload only where nothing is worked out with it.

use super::wording::quoted;

const BITS: &str = "bits:";

/// The bits of a float that stands in a text. A decimal is taken times `scale`.
pub fn read(word: &str, scale: f64) -> Result<u64, String> {
    if let Some(digits) = word.strip_prefix(BITS) {
        let hex = digits.len() == 16 && digits.bytes().all(|byte| byte.is_ascii_hexdigit());
        let bits = u64::from_str_radix(digits, 16).ok().filter(|_| hex);
        return bits.ok_or_else(|| {
            let word = quoted(word);
            format!("{word} hasn't 16 hex digits after {BITS}, as {BITS}3FF0000000000000 has")
        });
    }
    match word.parse::<f64>() {
        Ok(number) if number.is_finite() => Ok((number * scale).to_bits()),
        Ok(_) => Err(not_finite(word)),
        Err(_) => Err(no_number(word)),
    }
}

fn not_finite(word: &str) -> String {
    let what = match word.contains(|it: char| it.is_ascii_digit()) {
        true => "is too large for a float",
        false => "is no decimal",
    };
    let word = quoted(word);
    format!("{word} {what}; an infinity or a NaN is written as its bits, such as {BITS}7FF0000000000000")
}

fn no_number(word: &str) -> String {
    let hint = match word.contains(',') {
        true => "; the decimal mark is a point, and spaces separate operands",
        false => "",
    };
    let word = quoted(word);
    format!("{word} is no number; a decimal such as 0.25 or {BITS} with 16 hex digits is expected{hint}")
}

fn as_bits(bits: u64) -> String {
    format!("{BITS}{bits:016X}")
}

/// The shortest decimal that gives back the bits, or the bits of a NaN or an infinity.
pub fn shown(bits: u64) -> String {
    if !f64::from_bits(bits).is_finite() {
        return as_bits(bits);
    }
    let shown = format!("{:?}", f64::from_bits(bits));
    match shown.strip_suffix(".0") {
        Some(whole) => whole.to_string(),
        None => shown,
    }
}

/// In degrees, with ten decimals; the bits of an angle that has none.
pub fn in_degrees(bits: u64) -> String {
    let degrees = f64::from_bits(bits).to_degrees();
    match degrees.is_finite() {
        true => format!("{degrees:.10}"),
        false => as_bits(bits),
    }
}
