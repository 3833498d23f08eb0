//! Pairs of arcs, as two cameras' edges have them and as they lie badly.

use super::ends::{
    antipodal, any_lon, at_distance, boundary_values, camera_edge, equal_points, joined,
    lon_beside_0, on_sphere, towards, Point,
};
use super::{ends, Class, Ends, BESIDE_LONGITUDE_0};
use crate::commands::{Command, TWO_ARCS};
use crate::crossings::Event::{self, Both, FarSide, First, Neither, NoNorm, Opposite, Underflow};
use crate::random::Random;
use std::f64::consts::{FRAC_PI_2, PI};

/// Each with the events that it is made for.
pub const CLASSES: [(Class<Command>, &[Event]); 19] = [
    (("of any classes", of_any_classes), &[Neither]),
    (
        ("camera edges that cross", edges_that_cross),
        &[First, Opposite],
    ),
    (
        ("camera edges close by", edges_close_by),
        &[First, Opposite, Neither],
    ),
    (
        ("long arcs that cross", long_that_cross),
        &[First, Opposite],
    ),
    (
        ("crossing at an end", crossing_at_an_end),
        &[First, Opposite, Neither],
    ),
    (
        ("sharing an end", sharing_an_end),
        &[First, Opposite, Neither],
    ),
    (("sharing both ends", sharing_both_ends), &[NoNorm]),
    (("the same twice", the_same_twice), &[NoNorm]),
    (
        ("one within the other", one_within_the_other),
        &[First, Opposite, Neither],
    ),
    (
        ("on one great circle", on_one_great_circle),
        &[First, Opposite, Neither, NoNorm],
    ),
    (("on the equator", on_the_equator), &[NoNorm]),
    (
        ("one with antipodal ends", one_with_antipodal_ends),
        &[First, Opposite, Neither, NoNorm],
    ),
    (
        ("both with antipodal ends", both_with_antipodal_ends),
        &[Both, First, Opposite, Neither, NoNorm],
    ),
    (("on a long arc's far side", on_the_far_side), &[FarSide]),
    (("one of length zero", one_of_length_zero), &[NoNorm]),
    (
        ("of tiny length", of_tiny_length),
        &[Underflow, First, Opposite],
    ),
    ((BESIDE_LONGITUDE_0, beside_longitude_0), &[First, Opposite]),
    (("over a pole", over_a_pole), &[First, Opposite]),
    (
        ("boundary values", of_boundary_values),
        &[First, Opposite, Neither, NoNorm],
    ),
];

pub fn any(random: &mut Random) -> Command {
    let ((_, draw), _) = random.one_of(&CLASSES);
    draw(random)
}

/// Either arc first, each from either end.
fn pair(random: &mut Random, arcs: [Ends; 2]) -> Command {
    let [a, b] = arcs.map(|ends| either_way(random, ends));
    let [[lon1, lat1, lon2, lat2], [lon3, lat3, lon4, lat4]] =
        if random.flip() { [a, b] } else { [b, a] };
    let floats = [lon1, lat1, lon2, lat2, lon3, lat3, lon4, lat4];
    Command::new(TWO_ARCS, floats, [])
}

fn either_way(random: &mut Random, [lon1, lat1, lon2, lat2]: Ends) -> Ends {
    if random.flip() {
        [lon2, lat2, lon1, lat1]
    } else {
        [lon1, lat1, lon2, lat2]
    }
}

/// On the circle through the point in this direction, between two distances from it.
fn along(point: Point, bearing: f64, [from, to]: [f64; 2]) -> Ends {
    joined(towards(point, bearing, from), towards(point, bearing, to))
}

/// Through the point in any direction, to so far at most on either side.
fn through(random: &mut Random, point: Point, most: f64) -> Ends {
    let [back, ahead] = [(); 2].map(|()| random.between(0.0, most));
    along(point, any_lon(random), [-back, ahead])
}

fn of_any_classes(random: &mut Random) -> Command {
    let arcs = [(); 2].map(|()| ends::any(random));
    pair(random, arcs)
}

fn both_through(random: &mut Random, most: f64) -> Command {
    let point = on_sphere(random);
    let arcs = [(); 2].map(|()| through(random, point, most));
    pair(random, arcs)
}

/// Each of at most 20 degrees.
pub fn edges_that_cross(random: &mut Random) -> Command {
    both_through(random, 10f64.to_radians())
}

fn long_that_cross(random: &mut Random) -> Command {
    both_through(random, FRAC_PI_2)
}

/// So close that some cross.
fn edges_close_by(random: &mut Random) -> Command {
    let start = on_sphere(random);
    let off = random.between(0.0, 20f64.to_radians());
    let other = at_distance(random, start, off);
    let arcs = [start, other].map(|start| camera_edge(random, start));
    pair(random, arcs)
}

fn crossing_at_an_end(random: &mut Random) -> Command {
    let point = on_sphere(random);
    let arcs = [through(random, point, 0.3), camera_edge(random, point)];
    pair(random, arcs)
}

fn sharing_an_end(random: &mut Random) -> Command {
    let [lon, lat, ..] = ends::any(random);
    let arcs = [(); 2].map(|()| camera_edge(random, [lon, lat]));
    pair(random, arcs)
}

/// Of one of the two latitudes the second arc may have one next to it.
fn sharing_both_ends(random: &mut Random) -> Command {
    let ends = ends::any(random);
    let mut others = ends;
    let place = 1 + 2 * random.below(2) as usize;
    others[place] = random.nudged(others[place]).clamp(-FRAC_PI_2, FRAC_PI_2);
    pair(random, [ends, others])
}

fn the_same_twice(random: &mut Random) -> Command {
    let ends = ends::any(random);
    pair(random, [ends; 2])
}

fn one_within_the_other(random: &mut Random) -> Command {
    let (point, bearing) = (on_sphere(random), any_lon(random));
    let length = random.between(0.0, 3.0);
    let inner = [(); 2].map(|()| random.between(0.0, length));
    let arcs = [[0.0, length], inner].map(|ends| along(point, bearing, ends));
    pair(random, arcs)
}

/// Apart, one over the other's end, or with an end of one at an end of the other.
fn on_one_great_circle(random: &mut Random) -> Command {
    let (point, bearing) = (on_sphere(random), any_lon(random));
    let [a, b, c, d] = [(); 4].map(|()| random.between(-1.5, 1.5));
    let second = if random.flip() { [c, d] } else { [b, c] };
    let arcs = [[a, b], second].map(|ends| along(point, bearing, ends));
    pair(random, arcs)
}

fn on_the_equator(random: &mut Random) -> Command {
    let arcs = [(); 2].map(|()| {
        let [lon1, lon2] = [(); 2].map(|()| any_lon(random));
        [lon1, random.signed(0.0), lon2, random.signed(0.0)]
    });
    pair(random, arcs)
}

/// With an arc that goes through one of them, or with any.
fn one_with_antipodal_ends(random: &mut Random) -> Command {
    let first = antipodal(random);
    let second = if random.flip() {
        through(random, [first[0], first[1]], 1.0)
    } else {
        ends::any(random)
    };
    pair(random, [first, second])
}

/// The sums are then about 0.
fn both_with_antipodal_ends(random: &mut Random) -> Command {
    let arcs = [(); 2].map(|()| {
        let [lon1, lat1, lon2, lat2] = antipodal(random);
        joined([lon1, lat1], [random.nudged(lon2), random.nudged(lat2)])
    });
    pair(random, arcs)
}

/// An arc of 120 degrees or more, and on its far side a point with an arc through it; or with another such arc.
fn on_the_far_side(random: &mut Random) -> Command {
    let point = on_sphere(random);
    let second = if random.flip() {
        through(random, point, FRAC_PI_2)
    } else {
        beyond(random, point)
    };
    let arcs = [beyond(random, point), second];
    pair(random, arcs)
}

/// An arc to both of whose ends the point has a scalar product of at least theirs, though it is opposite to a point on the arc or near it.
fn beyond(random: &mut Random, point: Point) -> Ends {
    let length = if random.flip() {
        random.between(PI / 1.5, PI)
    } else {
        PI - random.power_of_ten(-16.0, -1.0)
    };
    let most = 1.5 * length - PI;
    let middle = PI + random.between(-most, most);
    let ends = [middle - 0.5 * length, middle + 0.5 * length];
    along(point, any_lon(random), ends)
}

fn one_of_length_zero(random: &mut Random) -> Command {
    let [lon, lat, ..] = equal_points(random);
    let second = match random.below(3) {
        0 => through(random, [lon, lat], 0.3),
        1 => equal_points(random),
        _ => ends::any(random),
    };
    pair(random, [[lon, lat, lon, lat], second])
}

/// So short, and so close to the equator, that the square of the norm may be a subnormal number or zero; from longitude 0 on the longitudes may be as
/// close.
fn of_tiny_length(random: &mut Random) -> Command {
    let [south, north] = [(); 2].map(|()| random.power_of_ten(-170.0, -150.0));
    let arcs = if random.flip() {
        let lon = any_lon(random);
        [[lon, -south, lon, north], through(random, [lon, 0.0], 0.3)]
    } else {
        let lon = random.power_of_ten(-90.0, -1.0);
        [[0.0, -south, lon, north], [0.0, north, lon, -south]]
    };
    pair(random, arcs)
}

/// One along the meridian 0, within a few floats, and one across it.
fn beside_longitude_0(random: &mut Random) -> Command {
    let lat = random.between(-1.0, 1.0);
    let [lon1, lon2] = [(); 2].map(|()| lon_beside_0(random));
    let first = joined([lon1, lat - 0.1], [lon2, lat + 0.1]);
    let second = through(random, [0.0, lat], 0.3);
    pair(random, [first, second])
}

fn over_a_pole(random: &mut Random) -> Command {
    let pole = random.signed(FRAC_PI_2);
    let arcs = [(); 2].map(|()| {
        let lon = any_lon(random);
        let [lat1, lat2] = [(); 2].map(|()| pole - random.between(0.0, pole));
        joined([lon, lat1], [lon + PI, lat2])
    });
    pair(random, arcs)
}

fn of_boundary_values(random: &mut Random) -> Command {
    let arcs = [(); 2].map(|()| boundary_values(random));
    pair(random, arcs)
}
