//! Arcs in the equator about the limits up to which the order of floats tells the signs of slopes.

use super::ends::{any_lon, at_distance, bearing_of, joined, towards};
use super::{asin, Class, Ends, TRANSITION_Z};
use crate::random::Random;
use crate::signs::{CLEAR, CTE, HIGHEST};
use std::f64::consts::{FRAC_PI_2, LOG10_2};

pub const CLASSES: [Class<Ends>; 3] = [
    ("a slope about one at an end", slope_about_one),
    ("from a height about T or 3/4", from_height),
    ("of any length, from the equator", of_any_length),
];

/// From 1e-9 to 2 radians, one in two from 1e-3.
fn length(random: &mut Random) -> f64 {
    let low = random.one_of(&[-9.0, -3.0]);
    random.power_of_ten(low, LOG10_2)
}

fn lat_in_eqr(random: &mut Random) -> f64 {
    asin(random.between(-TRANSITION_Z, TRANSITION_Z))
}

/// A direction in which the slope at this latitude is about one, or about where it is clearly below or above.
fn bearing_about_one(random: &mut Random, lat: f64) -> f64 {
    let size = random.one_of(&[CTE, CTE, CLEAR[0], CLEAR[1]]);
    let low = random.one_of(&[-16.0, -5.0]);
    let off = random.power_of_ten(low, -2.0);
    let size = size * (1.0 + random.signed(off));
    bearing_of(random.signed(size), lat)
}

fn slope_about_one(random: &mut Random) -> Ends {
    let lat = lat_in_eqr(random);
    let bearing = bearing_about_one(random, lat);
    let start = [any_lon(random), random.nudged(lat)];
    let distance = length(random);
    joined(start, towards(start, bearing, random.signed(distance)))
}

/// Towards the equator, or to another such height.
fn from_height(random: &mut Random) -> Ends {
    let [lat, other] = [(); 2].map(|()| {
        let height = random.one_of(&[TRANSITION_Z, HIGHEST]);
        let lat = random.nudged(asin(height));
        random.signed(lat)
    });
    let start = [any_lon(random), lat];
    let distance = length(random);
    let bearing = match random.below(3) {
        0 => return joined(start, [start[0] + random.signed(distance), other]),
        1 => bearing_about_one(random, lat),
        _ => random.between(-FRAC_PI_2, FRAC_PI_2),
    };
    joined(start, towards(start, bearing, distance.copysign(-lat)))
}

fn of_any_length(random: &mut Random) -> Ends {
    let start = [any_lon(random), lat_in_eqr(random)];
    let distance = length(random);
    joined(start, at_distance(random, start, distance))
}

/// Of any of these.
pub fn any(random: &mut Random) -> Ends {
    let (_, draw) = random.one_of(&CLASSES);
    draw(random)
}
