//! Document 02, ask 3: where two arcs cross. The reference has no such function, so the rule stands here, in the paper's words and over the
//! reference's vectors. Either build of the reference has it as its module: the watched one for answers, the plain one for timing.

use super::{cross_product, dot_product, Coo3D, LonLat, UnitVect3, Vec3, Vect3};

/// "the cross product of the two arcs' cross products has norm zero or NaN"
#[derive(Debug)]
pub struct NoNorm;

/// An arc, by its two ends.
pub struct Arc([Coo3D; 2]);

impl Arc {
    fn cross(&self) -> Vect3 {
        let Arc([p1, p2]) = self;
        cross_product(p1, p2)
    }

    /// "its scalar product with each end is at least that of the arc's two ends"
    pub fn is_near(&self, candidate: &UnitVect3) -> bool {
        let Arc([p1, p2]) = self;
        let least = dot_product(p1, p2);
        dot_product(candidate, p1) >= least && dot_product(candidate, p2) >= least
    }

    /// "the sum of its products with the two isn't below 0"
    #[allow(clippy::neg_cmp_op_on_partial_ord)]
    pub fn is_before(&self, candidate: &UnitVect3) -> bool {
        let Arc([p1, p2]) = self;
        !(dot_product(candidate, p1) + dot_product(candidate, p2) < 0.0)
    }
}

/// The ends are made as those of code 06.
pub fn arcs(floats: &[f64; 8]) -> [Arc; 2] {
    let end = |at: usize| Coo3D::from_sph_coo(floats[at], floats[at + 1]);
    [Arc([end(0), end(2)]), Arc([end(4), end(6)])]
}

/// "the cross product of the two arcs' cross products"; neither of these is normalised.
pub fn cross([first, second]: &[Arc; 2]) -> Vect3 {
    cross_product(first.cross(), second.cross())
}

/// "the normalised cross product of the two arcs' cross products, then its opposite"
pub fn candidates(arcs: &[Arc; 2]) -> Result<[UnitVect3; 2], NoNorm> {
    let cross = cross(arcs);
    let norm = cross.norm();
    if norm == 0.0 || norm.is_nan() {
        return Err(NoNorm);
    }
    let candidate = cross.normalized();
    let opposite = candidate.opposite();
    Ok([candidate, opposite])
}

/// "The first that passes", if one does.
pub fn crossing(floats: &[f64; 8]) -> Result<Option<LonLat>, NoNorm> {
    let arcs = arcs(floats);
    let passes = |candidate: &UnitVect3| {
        let mut arcs = arcs.iter();
        arcs.all(|arc| arc.is_near(candidate) && arc.is_before(candidate))
    };
    let passing = candidates(&arcs)?.into_iter().find(passes);
    Ok(passing.map(|candidate| candidate.lonlat()))
}
