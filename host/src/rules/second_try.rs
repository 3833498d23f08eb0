//! Document 02, ask 7: a second try at the equator. The reference has none, so the rule stands here, in the paper's words and over the reference's
//! slope, sign rule and crossing. The watched build of the reference has it as its module.

use super::{
    cross_product, f_eqr, have_same_sign, intersect_parallel, Coo3D, LonLat, Vec3,
    ONE_OVER_TRANSITION_Z,
};
use std::f64::consts::FRAC_PI_4;

/// "exactly 60 times"
pub const TIMES: usize = 60;

/// The slope on a piece, by the constants that the reference works out for it before its walk.
pub struct Slope {
    z0: f64,
    w0: f64,
    cte: f64,
}

impl Slope {
    /// The piece's ends are in the source's order.
    pub fn on([p1, p2]: &[Coo3D; 2]) -> Self {
        let z0 = cross_product(p1, p2).normalized().z();
        let cte = ONE_OVER_TRANSITION_Z * FRAC_PI_4;
        Slope {
            z0,
            w0: 1.0 - z0 * z0,
            cte: if z0 < 0.0 { -cte } else { cte },
        }
    }

    pub fn at(&self, z: f64) -> f64 {
        f_eqr(z, self.z0, self.w0, self.cte, 0.0)
    }
}

/// A middle with its slope, and whether it replaces z1.
#[derive(Clone, Copy)]
pub struct Middle {
    pub z: f64,
    pub slope: f64,
    pub replaces_z1: bool,
}

/// The middles of so many halvings. "The middle, half the sum, replaces z1 if its slope has the same sign as the slope at the z1 the halving began
/// with, by the existing sign rule, else z2."
pub fn middles(ends: &[Coo3D; 2], times: usize) -> Vec<Middle> {
    let slope = Slope::on(ends);
    let [mut z1, mut z2] = ends.each_ref().map(|end| end.z());
    let first = slope.at(z1);
    let mut middles = Vec::with_capacity(times);
    for _ in 0..times {
        let z = 0.5 * (z1 + z2);
        let slope = slope.at(z);
        let replaces_z1 = have_same_sign(slope, first);
        if replaces_z1 {
            z1 = z;
        } else {
            z2 = z;
        }
        middles.push(Middle {
            z,
            slope,
            replaces_z1,
        });
    }
    middles
}

/// "The last middle is taken through the parallel crossing". It may panic there, as after a walk.
pub fn point(ends: &[Coo3D; 2]) -> Option<LonLat> {
    crossing(ends, middles(ends, TIMES)[TIMES - 1].z)
}

pub fn crossing([p1, p2]: &[Coo3D; 2], z: f64) -> Option<LonLat> {
    intersect_parallel(p1, p2, z).map(|vector| vector.lonlat())
}
