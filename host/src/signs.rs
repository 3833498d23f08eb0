//! Signs by order: where the order of floats tells whether the slopes at the ends of a piece in the equator have the same sign, and where it tells nothing.
//! The rule stands here in Rust. The reference's own slopes must not contradict it, and its answers are counted.

use crate::angles::atan2;
use crate::outcomes::print_row;
use crate::reference::{
    cross_product, dot_product, Coo3D, Vec3, ONE_OVER_TRANSITION_Z, TRANSITION_Z,
};
use crate::rules::{lower_first, Reply};
use std::f64::consts::FRAC_PI_4;

/// The size of dα/dz where the slope on the projection plane is one.
pub const CTE: f64 = ONE_OVER_TRANSITION_Z * FRAC_PI_4;
/// A size is clearly below CTE up to the inverse of the first, and clearly above from the inverse of the second on.
const UNDER_INVERSE: f64 = 0.85;
const OVER_INVERSE: f64 = 0.848;
/// These inverses.
pub const CLEAR: [f64; 2] = [1.0 / UNDER_INVERSE, 1.0 / OVER_INVERSE];
/// Up to this height the rule tells anything. No end of a piece is higher.
pub const HIGHEST: f64 = 0.75;

/// By the rule's own numbers.
const ANSWERS: [&str; 3] = ["0: nothing", "1: the same", "2: not"];
const NOTHING: usize = 0;
/// By where −T and T cut the arc. One that is cut at both has the same slope there, so that 2 is not due.
const PLACES: [&str; 3] = ["not cut", "cut at -T", "cut at T alone"];
/// What the reference says of the signs.
const SIGNS: [&str; 2] = ["not the same", "the same"];
/// About which sizes of dα/dz an end is counted, and how close to them.
const SIZES: [(&str, f64, f64); 3] = [
    ("clearly below one", CLEAR[0], 1e-5),
    ("one", CTE, 1e-12),
    ("clearly above one", CLEAR[1], 1e-5),
];
const HEIGHTS: [(&str, f64); 2] = [("T", TRANSITION_Z), ("3/4", HIGHEST)];
const SIDES: [&str; 2] = ["below", "not below"];
/// An end is counted up to so many floats from these heights.
const FLOATS: u64 = 4;
/// In radians; and the names of what lies between one and the next.
const LENGTHS: [f64; 5] = [1e-9, 1e-6, 1e-3, 0.1, 2.0];
const LENGTH_NAMES: [&str; LENGTHS.len() + 1] = [
    "below 1e-9",
    "to 1e-6",
    "to 1e-3",
    "to 0.1",
    "to 2",
    "above",
];

/// Why nothing is told.
#[derive(Clone, Copy, Debug, PartialEq)]
enum Reason {
    NotBounded,
    NoSlope,
    OneEnd,
    BothEnds,
}
use Reason::{BothEnds, NoSlope, NotBounded, OneEnd};

const REASONS: [(Reason, &str); 4] = [
    (NotBounded, "the normal isn't bounded"),
    (NoSlope, "a slope is NaN"),
    (OneEnd, "one end is not clear"),
    (BothEnds, "neither end is"),
];

/// dα/dz at z is this over the root of `radicand_at`, for a normal of the height u, which is 0 or above.
fn size_at(z: f64, u: f64) -> f64 {
    u + z / (1.0 - z * z) * (z * u)
}

fn radicand_at(z: f64, u: f64) -> f64 {
    (1.0 - u * u) * (1.0 - z * z) - z * u * (z * u)
}

/// The size is clearly below CTE, for a normal of at most the height u.
fn below_cte(z: f64, u: f64) -> bool {
    let size = size_at(z, u);
    let g = size * UNDER_INVERSE;
    g * g < radicand_at(z, u) && size < 1.1775 * g
}

/// It is clearly above, for a normal of a height from l to u.
fn above_cte(z: f64, l: f64, u: f64) -> bool {
    let size = size_at(z, l);
    let g = size * OVER_INVERSE;
    radicand_at(z, l) < g * g && 1.179 * g < size && 0.0 < radicand_at(z, u)
}

/// A Newton step towards 1 / √s.
fn nearer(y: f64, s: f64) -> f64 {
    y * (1.5 - 0.5 * s * y * y)
}

/// About 1 / √s.
fn inverse_root(s: f64) -> f64 {
    let y = f64::from_bits(0x5fe6_eb50_c7b5_37a9 - s.to_bits() / 2);
    nearer(nearer(y, s), s)
}

/// The normal's height, but for its sign, as the reference works it out.
fn normal_height([p1, p2]: &[Coo3D; 2]) -> f64 {
    cross_product(p1, p2).normalized().z().abs()
}

/// What it lies between, with no root taken.
fn bounds([p1, p2]: &[Coo3D; 2]) -> Option<[f64; 2]> {
    let cross = cross_product(p1, p2);
    let s = cross.squared_norm();
    let y = inverse_root(s);
    let [low, high] = [0.999999, 1.000006].map(|factor| s * y * factor);
    let height = cross.z().abs();
    let [l, u] = [0.999993, 1.000012].map(|factor| y * (height * factor));
    let norm_held = 0.0 < low && low <= high && high <= 4.0 && low * low < s && s < high * high;
    let height_held = 0.0 < l && l <= u && u <= 1.0 && l * high < height && height < u * low;
    (norm_held && height_held).then_some([l, u])
}

/// Whether the slopes at the piece's ends have the same sign.
fn told(ends: &[Coo3D; 2]) -> Result<bool, Reason> {
    let heights = ends.each_ref().map(|end| end.z());
    let low = heights.iter().all(|z| z.abs() <= HIGHEST);
    let [l, u] = bounds(ends).filter(|_| low).ok_or(NotBounded)?;
    let [below1, below2] = heights.map(|z| below_cte(z, u));
    let [above1, above2] = heights.map(|z| above_cte(z, l, u));
    if below1 && below2 || above1 && above2 {
        Ok(true)
    } else if below1 && above2 || above1 && below2 {
        Ok(false)
    } else if sizes(ends).iter().any(|size| size.is_nan()) {
        Err(NoSlope)
    } else if below1 || below2 || above1 || above2 {
        Err(OneEnd)
    } else {
        Err(BothEnds)
    }
}

/// The sizes of dα/dz at the piece's ends.
fn sizes(ends: &[Coo3D; 2]) -> [f64; 2] {
    let u = normal_height(ends);
    let size = |z| size_at(z, u) / radicand_at(z, u).sqrt();
    ends.each_ref().map(|end| size(end.z()))
}

/// Whether the reference's slopes have the same sign: then it makes no walk.
fn have_same_sign(kind: u8) -> bool {
    kind == 1
}

/// What the rule says of a piece that the reference contradicts.
pub fn contradiction(reply: &Reply) -> Option<String> {
    let (ends, kind) = reply.in_equator()?;
    let [l, u] = bounds(ends)?;
    if !(l..=u).contains(&normal_height(ends)) {
        return Some(format!(
            "by order the normal's height is from {l} to {u}, {reply:x?}"
        ));
    }
    let same = told(ends).ok()?;
    let signs = SIGNS[usize::from(same)];
    let wrong = same != have_same_sign(kind);
    wrong.then(|| format!("by order the signs are {signs}, {reply:x?}"))
}

#[derive(Clone, Default)]
pub struct Signs {
    /// By place and answer.
    answers: [[u64; ANSWERS.len()]; PLACES.len()],
    /// Where nothing is told: by the reason, and by what the reference says.
    reasons: [[u64; SIGNS.len()]; REASONS.len()],
    sizes: [[u64; SIDES.len()]; SIZES.len()],
    heights: [[u64; SIDES.len()]; HEIGHTS.len()],
    lengths: [u64; LENGTH_NAMES.len()],
}

impl Signs {
    pub fn count(&mut self, reply: &Reply) {
        let Some((ends, kind)) = reply.in_equator() else {
            return;
        };
        let arc = lower_first(&reply.command).map(|end| end.z());
        self.count_answer(arc, told(ends), have_same_sign(kind));
        for size in sizes(ends) {
            self.count_size(size);
        }
        for z in arc {
            self.count_height(z.abs());
        }
        self.count_length(ends);
    }

    fn count_answer(&mut self, [low, high]: [f64; 2], told: Result<bool, Reason>, same: bool) {
        let place = if low < -TRANSITION_Z {
            1
        } else if high > TRANSITION_Z {
            2
        } else {
            0
        };
        let answer = match told {
            Ok(true) => 1,
            Ok(false) => 2,
            Err(reason) => {
                self.reasons[reason as usize][usize::from(same)] += 1;
                NOTHING
            }
        };
        self.answers[place][answer] += 1;
    }

    fn count_size(&mut self, size: f64) {
        for (counts, (_, limit, close)) in self.sizes.iter_mut().zip(SIZES) {
            if (size / limit - 1.0).abs() <= close {
                counts[usize::from(size >= limit)] += 1;
            }
        }
    }

    fn count_height(&mut self, z: f64) {
        for (counts, (_, limit)) in self.heights.iter_mut().zip(HEIGHTS) {
            if z.to_bits().abs_diff(limit.to_bits()) <= FLOATS {
                counts[usize::from(z >= limit)] += 1;
            }
        }
    }

    fn count_length(&mut self, [p1, p2]: &[Coo3D; 2]) {
        let length = atan2(cross_product(p1, p2).norm(), dot_product(p1, p2));
        self.lengths[LENGTHS.partition_point(|least| *least <= length)] += 1;
    }

    /// How often each answer came.
    pub fn answers(&self) -> [u64; ANSWERS.len()] {
        [0, 1, 2].map(|answer| self.answers.iter().map(|counts| counts[answer]).sum())
    }

    fn counts(&self) -> Vec<u64> {
        let answers = self.answers.iter().flatten();
        let reasons = self.reasons.iter().flatten();
        let about = self.sizes.iter().chain(&self.heights).flatten();
        let counts = answers.chain(reasons).chain(about).chain(&self.lengths);
        counts.copied().collect()
    }

    /// How often that was seen which was seen least.
    pub fn least(&self) -> u64 {
        self.counts().into_iter().min().unwrap_or(0)
    }

    /// The same of what a reply adds to.
    pub fn least_of(&self, reply: &Reply) -> u64 {
        let mut alone = Signs::default();
        alone.count(reply);
        let counts = self.counts().into_iter().zip(alone.counts());
        let added_to = counts.filter(|(_, added)| *added > 0);
        added_to.map(|(count, _)| count).min().unwrap_or(u64::MAX)
    }

    pub fn print(&self) {
        print_row("signs by order", ANSWERS);
        for (place, counts) in PLACES.iter().zip(self.answers) {
            print_row(&format!("arcs {place}"), counts);
        }
        print_row("nothing told, by the reference", SIGNS);
        for ((_, reason), counts) in REASONS.iter().zip(self.reasons) {
            print_row(reason, counts);
        }
        print_row("ends of these pieces and arcs", SIDES);
        for ((size, ..), counts) in SIZES.iter().zip(self.sizes) {
            print_row(&format!("about a slope that is {size}"), counts);
        }
        for ((height, _), counts) in HEIGHTS.iter().zip(self.heights) {
            print_row(&format!("about the height {height}"), counts);
        }
        print_row("these pieces, by length", LENGTH_NAMES);
        print_row("", self.lengths);
    }

    /// What is due and was never seen.
    pub fn missing(&self) -> Vec<String> {
        let each = |names: &[&str], of: &[&str]| -> Vec<String> {
            let each = names
                .iter()
                .flat_map(|name| of.iter().map(move |it| format!("{name}, {it}")));
            each.collect()
        };
        let sizes = SIZES.map(|(size, ..)| size);
        let heights = HEIGHTS.map(|(height, _)| height);
        let names = [
            each(&PLACES, &ANSWERS),
            each(&REASONS.map(|(_, reason)| reason), &SIGNS),
            each(&sizes, &SIDES),
            each(&heights, &SIDES),
            LENGTH_NAMES.map(str::to_string).to_vec(),
        ];
        let unseen = names.concat().into_iter().zip(self.counts());
        let unseen = unseen.filter(|(_, count)| *count == 0);
        unseen
            .map(|(name, _)| format!("signs by order: {name}"))
            .collect()
    }

    /// The answers that the inputs of this name never got.
    pub fn missing_of(&self, inputs: &str) -> Vec<String> {
        let answers = ANSWERS.iter().zip(self.answers());
        let unseen = answers.filter(|(_, count)| *count == 0);
        unseen
            .map(|(answer, _)| format!("{inputs}: {answer}"))
            .collect()
    }
}

#[cfg(test)]
mod tests {
    use super::Signs;
    use crate::commands::{Command, ARC};
    use crate::inputs::ends::{camera_edges, transition_latitude};
    use crate::random::Random;
    use crate::rules::{self, Settings};

    /// Of other arcs it may tell less, but these it is for.
    #[test]
    fn nearly_all_camera_edges_on_the_equator_are_told() {
        let mut random = Random::new(1);
        let mut signs = Signs::default();
        for _ in 0..200_000 {
            let ends = camera_edges(&mut random);
            let [_, lat1, _, lat2] = ends;
            if lat1.abs().max(lat2.abs()) < transition_latitude() {
                let edge = Command::new(ARC, ends, []);
                signs.count(&rules::reply(&edge, &Settings::new(1e-9, 20)));
            }
        }
        let [nothing, same, not] = signs.answers();
        println!("{nothing} nothing, {same} the same, {not} not");
        let edges = nothing + same + not;
        assert!(nothing * 100 < edges);
        assert!(same * 100 > 90 * edges);
    }
}
