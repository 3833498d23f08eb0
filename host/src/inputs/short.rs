//! Document 02, ask 5: arcs about one arcsecond, where the flat rule ends, and arcs to which it applied before. Ask 6: those of about that length in a
//! plane that the y axis lies in, or nearly.

use super::ends::{
    any_lon, bearing_of, joined, point_in_cap, point_in_eqr, towards, transition_latitude, Point,
};
use super::{asin, atan, Ends, TRANSITION_Z};
use crate::random::Random;
use crate::reference::{OLD_SHORT_LIMIT, QUARTER_DEGREE, SHORT_LIMIT};
use std::f64::consts::{FRAC_PI_2, FRAC_PI_4};

/// A point and the direction of an arc through it.
type Draw = fn(&mut Random) -> (Point, f64);

/// A special point of either region, and any point at which an arc is split.
const THROUGH: [Draw; 3] = [point_in_eqr, point_in_cap, |random| {
    let lat = random.signed(transition_latitude());
    ([any_lon(random), lat], any_lon(random))
}];

/// The same in planes that the y axis lies in, or nearly: along the meridians of 90 and 270 degrees over −T or T, and through a special point in the equator.
const BESIDE_Y_AXIS: [Draw; 2] = [along_meridian, special_in_plane_of_y];

/// Ends whose distance comes to exactly one arcsecond, found by trying some thousand to some million arcs for each: three about a special point in the
/// equator, three about one in a cap, and three over −T or T.
const AT_LIMIT: [Ends; 9] = [
    [
        2.2456443808993445,
        0.6909417692451624,
        2.245647987397219,
        0.690945741619647,
    ],
    [
        0.6979983464357721,
        -0.4174259912371043,
        0.69800206712868,
        -0.41742253636623916,
    ],
    [
        3.2357784986441964,
        -0.4969578396542707,
        3.2357747859109764,
        -0.49695425452802766,
    ],
    [
        3.8246070167870005,
        1.2959199666686432,
        3.8246169609327114,
        1.295923993986763,
    ],
    [
        0.4903259090650579,
        1.1313581255034064,
        0.4903177360689266,
        1.1313615040626988,
    ],
    [
        5.784376775371797,
        -1.1916967903033002,
        5.784367359051278,
        -1.1916934198011466,
    ],
    [
        0.7496935490408958,
        0.7297291624729652,
        0.7496958846968956,
        0.729724637684533,
    ],
    [
        0.6414648303040523,
        0.7297260854195402,
        0.6414623276212502,
        0.7297305603224709,
    ],
    [
        1.973388918760785,
        -0.7297293952924118,
        1.9733932938430305,
        -0.7297258077655291,
    ],
];

/// About both limits in a cap, where arcs in such planes seldom have a special point, and close to the pole: found within an arcminute of it by trying some
/// thousand arcs for each. The first two are near-meridian and short, the next two near-meridian alone, then two short alone, and two neither.
const BESIDE_POLE: [Ends; 8] = [
    [
        4.712385701541809,
        -1.5707389755087007,
        4.712385954753034,
        -1.5707341758532576,
    ],
    [
        1.5707965717374541,
        -1.570639083881201,
        1.5707965644823243,
        -1.570634284225758,
    ],
    [
        4.712390077279827,
        1.5707263955337523,
        4.712390159867759,
        1.5707312921519314,
    ],
    [
        1.5707961695082056,
        -1.5705777762766184,
        1.5707961729549844,
        -1.5705728796584393,
    ],
    [
        4.712388364725708,
        1.5706061679127912,
        4.712388348783955,
        1.5706109675682343,
    ],
    [
        1.5707988085355173,
        -1.5706311843086511,
        1.570798738444016,
        -1.5706263846532083,
    ],
    [
        1.570795455021418,
        1.5705401080792674,
        1.5707954380362747,
        1.5705450046974465,
    ],
    [
        4.7123859006606175,
        -1.5705941886751136,
        4.71238597349976,
        -1.5705892920569344,
    ],
];

/// 90 or 270 degrees, or next to that.
fn lon_of_y_axis(random: &mut Random) -> f64 {
    let off = random.power_of_ten(-17.0, -12.0);
    random.one_of(&[FRAC_PI_2, 3.0 * FRAC_PI_2]) + random.signed(off)
}

fn along_meridian(random: &mut Random) -> (Point, f64) {
    let lat = random.nudged(transition_latitude());
    ([lon_of_y_axis(random), random.signed(lat)], 0.0)
}

/// Where an arc in a plane with the y axis has its special direction, close to that axis or to T: there dz/dlon is −tan(lon) z (1 − z²).
fn special_in_plane_of_y(random: &mut Random) -> (Point, f64) {
    let derivative = 1.5 * FRAC_PI_4;
    let z = if random.flip() {
        random.power_of_ten(-9.0, -0.177)
    } else {
        TRANSITION_Z - random.power_of_ten(-9.0, -5.5)
    };
    let off = atan(derivative * z * (1.0 - z * z));
    let (z, off) = (random.signed(z), random.signed(off));
    let lat = asin(z);
    let bearing = bearing_of(derivative.copysign(off * z), lat);
    ([lon_of_y_axis(random) + off, lat], bearing)
}

/// Through a point that one of these draws, of this length, so much of it before the point.
fn of_length(random: &mut Random, draws: &[Draw], length: f64, before: f64) -> Ends {
    let (point, bearing) = random.one_of(draws)(random);
    joined(
        towards(point, bearing, -before),
        towards(point, bearing, length - before),
    )
}

/// Under or over one arcsecond, by a part of it.
fn length_about_limit(random: &mut Random) -> f64 {
    let off = random.power_of_ten(-12.0, 0.0);
    SHORT_LIMIT * (1.0 + random.signed(off))
}

pub fn about_limit(random: &mut Random) -> Ends {
    let length = length_about_limit(random);
    let before = random.between(0.0, length);
    of_length(random, &THROUGH, length, before)
}

/// Where |y0| is about 1e-14 too. From the point itself or up to it rounding decides whether there is a crossing.
pub fn about_both_limits(random: &mut Random) -> Ends {
    if random.below(4) == 0 {
        return one_nudged(random, &BESIDE_POLE);
    }
    let length = length_about_limit(random);
    let within = random.between(0.0, length);
    let before = random.one_of(&[0.0, within, within, length]);
    of_length(random, &BESIDE_Y_AXIS, length, before)
}

/// From a quarter of a degree to the source's limit, 0.91 degrees.
pub fn no_longer_flat(random: &mut Random) -> Ends {
    let length = random.between(QUARTER_DEGREE, OLD_SHORT_LIMIT);
    let before = random.between(0.0, length);
    of_length(random, &THROUGH, length, before)
}

/// Of exactly one arcsecond as the finder works it out, or next to that.
pub fn at_limit(random: &mut Random) -> Ends {
    one_nudged(random, &AT_LIMIT)
}

fn one_nudged(random: &mut Random, ends: &[Ends]) -> Ends {
    let [lon1, lat1, lon2, lat2] = random.one_of(ends);
    joined([lon1, lat1], [lon2, random.nudged(lat2)])
}

/// Of any of these.
pub fn any(random: &mut Random) -> Ends {
    random.one_of(&[about_limit, about_both_limits, no_longer_flat, at_limit])(random)
}
