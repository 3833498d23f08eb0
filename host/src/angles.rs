//! The angle functions of document 01's "Root and angles" in Rust: they stand in for the library's on the reference's side of every comparison.

use std::f64::consts::{FRAC_PI_2, FRAC_PI_4, PI};

/// The series in u with these coefficients, the highest power's first.
fn series(u: f64, coefficients: &[f64]) -> f64 {
    let coefficients = coefficients.iter().copied();
    let sum = coefficients.reduce(|sum, next| sum * u + next);
    sum.expect("a series has a coefficient")
}

/// From the tangent of an angle to the tangent of its half.
fn half_angle(root: impl Fn(f64) -> f64, t: f64) -> f64 {
    t / (1.0 + root(1.0 + t * t))
}

/// ±1/n for n = 23, 21, .., 1.
const ARCTANGENT: [f64; 12] = {
    let mut coefficients = [0.0; 12];
    let mut i = 0;
    while i < 12 {
        let n = 23 - 2 * i;
        coefficients[i] = if n % 4 == 1 { 1.0 } else { -1.0 } / n as f64;
        i += 1;
    }
    coefficients
};

/// The arctangent of a t from 0 to 1.
fn arctangent(root: impl Fn(f64) -> f64, t: f64) -> f64 {
    let t = half_angle(&root, half_angle(&root, t));
    series(t * t, &ARCTANGENT) * t * 4.0
}

pub fn atan2(y: f64, x: f64) -> f64 {
    atan2_by(f64::sqrt, y, x)
}

/// The same by a root that is given.
pub fn atan2_by(root: impl Fn(f64) -> f64, y: f64, x: f64) -> f64 {
    if !y.is_finite() || !x.is_finite() {
        return f64::NAN;
    }
    let mut a = if x == 0.0 && y == 0.0 {
        0.0
    } else if y.abs() <= x.abs() {
        arctangent(root, y.abs() / x.abs())
    } else {
        FRAC_PI_2 - arctangent(root, x.abs() / y.abs())
    };
    if x.is_sign_negative() {
        a = PI - a;
    }
    a.copysign(y)
}

pub fn acos(c: f64) -> f64 {
    acos_by(f64::sqrt, c)
}

/// The same by a root that is given.
pub fn acos_by(root: impl Fn(f64) -> f64, c: f64) -> f64 {
    if (-1.0..=1.0).contains(&c) {
        let sine = root((1.0 - c) * (1.0 + c));
        atan2_by(root, sine, c)
    } else {
        f64::NAN
    }
}

const SINE: [f64; 9] = taylor(17);
const COSINE: [f64; 10] = taylor(18);

/// ±1/n! for every other n from `highest` down.
const fn taylor<const N: usize>(highest: u64) -> [f64; N] {
    let mut coefficients = [0.0; N];
    let mut i = 0;
    while i < N {
        let n = highest - 2 * i as u64;
        coefficients[i] = if n % 4 < 2 { 1.0 } else { -1.0 } / factorial(n);
        i += 1;
    }
    coefficients
}

/// n!, which up to 18 is below 2^53.
const fn factorial(n: u64) -> f64 {
    let mut product = 1;
    let mut factor = 1;
    while factor <= n {
        product *= factor;
        factor += 1;
    }
    product as f64
}

fn sine_series(r: f64) -> f64 {
    series(r * r, &SINE) * r
}

fn cosine_series(r: f64) -> f64 {
    series(r * r, &COSINE)
}

/// The sine and the cosine of an r from 0 to π/2.
fn within_quarter_turn(r: f64) -> (f64, f64) {
    if r > FRAC_PI_4 {
        (cosine_series(FRAC_PI_2 - r), sine_series(FRAC_PI_2 - r))
    } else {
        (sine_series(r), cosine_series(r))
    }
}

pub fn sin_cos(v: f64) -> (f64, f64) {
    if v.is_nan() {
        return (f64::NAN, f64::NAN);
    }
    let size = v.abs();
    let quarters = [3.0, 2.0, 1.0];
    let k = quarters.into_iter().find(|k| k * FRAC_PI_2 <= size);
    let k = k.unwrap_or(0.0);
    let (s, c) = within_quarter_turn(size - k * FRAC_PI_2);
    let (sine, cosine) = match k as u8 {
        0 => (s, c),
        1 => (c, -s),
        2 => (-s, -c),
        _ => (-c, s),
    };
    if v.is_sign_negative() {
        (-sine, cosine)
    } else {
        (sine, cosine)
    }
}
