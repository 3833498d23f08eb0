//! Cones.

use super::ends::transition_latitude;
use super::{sin, Class, TRANSITION_Z};
use crate::commands::{Command, EQUATORIAL_CONE, POLAR_CONE};
use crate::random::Random;
use std::f64::consts::{FRAC_PI_2, FRAC_PI_4, SQRT_2};

pub const EQUATORIAL: [Class<Command>; 3] = [
    ("as the source advises", advised_in_eqr),
    ("any", |random| any(random).in_eqr()),
    ("boundary values", |random| boundary(random).in_eqr()),
];

pub const POLAR: [Class<Command>; 3] = [
    ("as the source advises", advised_in_pc),
    ("any", |random| {
        let cone = any(random);
        cone.in_pc(random.between(0.0, FRAC_PI_2), random.flip())
    }),
    ("boundary values", |random| {
        let cone = boundary(random);
        cone.in_pc(boundary_lon(random), random.flip())
    }),
];

struct Cone {
    z: f64,
    z0: f64,
    radius: f64,
    north: bool,
}

impl Cone {
    fn in_eqr(self) -> Command {
        let floats = [self.z, self.z0, self.radius];
        Command::new(EQUATORIAL_CONE, floats, [self.north.into()])
    }

    fn in_pc(self, lon: f64, east: bool) -> Command {
        let floats = [self.z, lon, self.z0, self.radius];
        Command::new(POLAR_CONE, floats, [east.into(), self.north.into()])
    }
}

pub fn advised_in_eqr(random: &mut Random) -> Command {
    let lat = random.between(-0.8, 0.8);
    advised(random, lat, 0.8).in_eqr()
}

pub fn advised_in_pc(random: &mut Random) -> Command {
    let lat = random.between(transition_latitude(), FRAC_PI_2);
    let lat = random.signed(lat);
    let cone = advised(random, lat, 0.9);
    cone.in_pc(random.between(0.0, FRAC_PI_2), random.flip())
}

/// The starting height that the source calls reasonable: so many radii from the centre.
fn advised(random: &mut Random, lat: f64, radii: f64) -> Cone {
    let radius = random.power_of_ten(-7.0, 0.0);
    let north = random.flip();
    let start = lat
        + if north {
            radii * radius
        } else {
            -radii * radius
        };
    Cone {
        z: sin(start),
        z0: sin(lat),
        radius: 2.0 * sin(radius / 2.0),
        north,
    }
}

fn any(random: &mut Random) -> Cone {
    Cone {
        z: random.between(-1.0, 1.0),
        z0: random.between(-1.0, 1.0),
        radius: 2.0 - random.between(0.0, 2.0),
        north: random.flip(),
    }
}

fn boundary(random: &mut Random) -> Cone {
    let radii = [0.0, 1e-300, 1e-17, 1e-7, 0.1, 0.5, 1.0, SQRT_2, 2.0];
    let radius = random.one_of(&radii);
    Cone {
        z: boundary_height(random),
        z0: boundary_height(random),
        radius: random.nudged(radius).clamp(5e-324, 2.0),
        north: random.flip(),
    }
}

pub fn boundary_height(random: &mut Random) -> f64 {
    let height = random.one_of(&[0.0, 5e-324, 1e-17, 1e-8, 0.5, TRANSITION_Z, 0.7, 1.0]);
    let nudged = random.nudged(height);
    random.signed(nudged).clamp(-1.0, 1.0)
}

fn boundary_lon(random: &mut Random) -> f64 {
    let largest = f64::from_bits(FRAC_PI_2.to_bits() - 1);
    let lon = random.one_of(&[-0.0, 5e-324, 1e-17, FRAC_PI_4, 1.0, largest]);
    let nudged = random.nudged(lon);
    if (0.0..FRAC_PI_2).contains(&nudged) {
        nudged
    } else {
        lon
    }
}
