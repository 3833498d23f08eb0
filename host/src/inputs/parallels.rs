//! Arcs and the heights at which they are crossed.

use super::cones::boundary_height;
use super::{ends, short, sin, Class, Ends, BESIDE_LONGITUDE_0, TRANSITION_Z};
use crate::commands::{Command, PARALLEL};
use crate::random::{moved, Random};

pub const CLASSES: [Class<Command>; 10] = [
    ("between the ends", |random| {
        let ends = ends::any(random);
        at(ends, between(random, ends))
    }),
    ("at an end", |random| {
        let ends = ends::any(random);
        at(ends, random.one_of(&heights(ends)))
    }),
    ("next to an end", |random| {
        let ends = ends::any(random);
        let height = random.one_of(&heights(ends));
        at(ends, random.nudged(height))
    }),
    ("at the transition", |random| {
        at(ends::any(random), random.signed(TRANSITION_Z))
    }),
    ("boundary heights", |random| {
        at(ends::any(random), boundary_height(random))
    }),
    ("any height", |random| {
        at(ends::any(random), random.between(-1.0, 1.0))
    }),
    ("near-meridian planes", |random| {
        let ends = ends::near_meridian(random);
        at(ends, between(random, ends))
    }),
    (BESIDE_LONGITUDE_0, beside_longitude_0),
    ("at the near-meridian limit", |random| {
        let ends = ends::at_meridian_limit(random);
        at(ends, between(random, ends))
    }),
    ("about one arcsecond, or no longer flat", short_arc),
];

/// At a height next to that of the first end, or at any between the two.
pub fn beside_longitude_0(random: &mut Random) -> Command {
    let ends = ends::beside_longitude_0(random);
    let [z1, z2] = heights(ends);
    let towards = if z1 < z2 { 1 } else { -1 };
    let heights = [moved(z1, towards), between(random, ends)];
    at(ends, random.one_of(&heights))
}

/// At a height between its ends.
pub fn short_arc(random: &mut Random) -> Command {
    let ends = short::any(random);
    at(ends, between(random, ends))
}

/// The heights of both ends, as the finder works them out.
fn heights([_, lat1, _, lat2]: Ends) -> [f64; 2] {
    [lat1, lat2].map(sin)
}

fn between(random: &mut Random, ends: Ends) -> f64 {
    let [z1, z2] = heights(ends);
    random.between(z1, z2)
}

pub fn at([lon1, lat1, lon2, lat2]: Ends, z: f64) -> Command {
    Command::new(PARALLEL, [lon1, lat1, lon2, lat2, z.clamp(-1.0, 1.0)], [])
}
