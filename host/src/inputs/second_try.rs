//! Document 02, ask 7: arcs in the equator that are often tried a second time, their walks having left them or come to no height.

use super::ends::{any_lon, bearing_of, joined, point_in_eqr, towards, transition_latitude};
use super::{asin, Ends, TRANSITION_Z};
use crate::random::Random;
use crate::reference::SHORT_LIMIT;
use std::f64::consts::{FRAC_PI_2, FRAC_PI_4};

/// Through a special point, to ends so far from it that the walk often leaves the arc, with any allowance but 0.
pub fn far_from_its_point(random: &mut Random) -> Ends {
    let (point, bearing) = point_in_eqr(random);
    let [back, ahead] = [(); 2].map(|()| random.between(0.0, 1.5));
    joined(
        towards(point, bearing, -back),
        towards(point, bearing, ahead),
    )
}

/// From the vertex of its circle due east or west: there the slope is infinite, or a NaN by rounding, and so is the step.
pub fn from_vertex(random: &mut Random) -> Ends {
    let start = [
        any_lon(random),
        asin(random.between(-TRANSITION_Z, TRANSITION_Z)),
    ];
    let distance = random.power_of_ten(-6.0, 0.4);
    let bearing = random.signed(FRAC_PI_2);
    joined(start, towards(start, bearing, distance))
}

/// Between latitudes so close to 0 that most slopes are NaN, or infinite at the lesser: so far are these apart in size that sixty halvings don't come
/// to where the next is the same.
pub fn along_equator(random: &mut Random) -> Ends {
    let lats = [
        random.power_of_ten(-20.0, -6.0),
        random.power_of_ten(-300.0, -160.0),
    ];
    let [lat1, lat2] = lats.map(|lat| random.signed(lat));
    joined([any_lon(random), lat1], [any_lon(random), lat2])
}

/// Under one arcsecond over −T or T, with a special point there. By the flat rule, which normalises, the piece's end lies past that height by up to
/// 2e-12, and so may the point: the walk's height is rejected, and the second try finds it.
pub fn special_at_transition(random: &mut Random) -> Ends {
    let lat = random.signed(transition_latitude());
    let bearing = bearing_of(random.signed(1.5 * FRAC_PI_4), lat);
    let point = [any_lon(random), lat];
    let [back, ahead] = [(); 2].map(|()| SHORT_LIMIT * random.between(0.3, 0.5));
    joined(
        towards(point, bearing, -back),
        towards(point, bearing, ahead),
    )
}

/// Of any of these.
pub fn any(random: &mut Random) -> Ends {
    let draws = [
        far_from_its_point,
        from_vertex,
        along_equator,
        special_at_transition,
    ];
    random.one_of(&draws)(random)
}
