//! Whether two arcs cross, by plain geometry and apart from document 02's rule: by the side of each arc's plane on which the other's ends lie. No
//! candidate is made and no scalar product with an end compared; sine and cosine are those of Rust's library.

use crate::commands::{Command, TWO_ARCS};
use crate::outcomes::print_row;

/// A pair is well-conditioned where none of the four triple products is smaller. Then each arc is longer, and shorter than half a turn by as much,
/// and the circles cross as far from each end: no answer hangs on a test that is closer to a tie than about the square, far above what rounding
/// adds up to.
const MARGIN: f64 = 1e-3;
/// How far the point of a well-conditioned pair may be from the crossing. Rounding moves the vector in whose direction it lies by some 10⁻¹⁵, and this
/// vector is longer than the square of the margin.
const MOST_OFF: f64 = 1e-8;

type Vector = [f64; 3];

#[derive(Default)]
pub struct Geometry {
    /// Well-conditioned pairs that cross, and that don't, as the finder says too.
    crossing: u64,
    apart: u64,
    /// Other pairs of which the finder says the same, and of which it doesn't.
    close_agree: u64,
    close_differ: u64,
    /// The farthest that a point of a well-conditioned pair was off.
    off: f64,
    wrong: u64,
}

impl Geometry {
    /// Looks at the reply to two arcs, and says what is wrong with it.
    pub fn check(&mut self, command: &Command, reply: &[u8]) -> Option<String> {
        let is_answered = command.code == TWO_ARCS && [0, 12].contains(&reply[1]);
        if !is_answered {
            return None;
        }
        let ends = ends(command);
        let sides = sides(&ends);
        let is_well_conditioned = sides.iter().all(|side| side.abs() >= MARGIN);
        let expected = match cross(sides) {
            true => [0, 3],
            false => [0, 5],
        };
        let agrees = [reply[1], reply[2]] == expected;
        match (is_well_conditioned, agrees) {
            (false, true) => self.close_agree += 1,
            (false, false) => self.close_differ += 1,
            (true, false) => {
                return self.note_wrong(format!("status and kind aren't {expected:?}"))
            }
            (true, true) if expected == [0, 3] => return self.check_point(&ends, sides, reply),
            (true, true) => self.apart += 1,
        }
        None
    }

    fn check_point(&mut self, ends: &[Vector; 4], sides: [f64; 4], reply: &[u8]) -> Option<String> {
        let off = distance(crossing(ends, sides), point(reply));
        self.off = self.off.max(off);
        if off > MOST_OFF {
            return self.note_wrong(format!("the point is {off:e} off"));
        }
        self.crossing += 1;
        None
    }

    fn note_wrong(&mut self, what: String) -> Option<String> {
        self.wrong += 1;
        Some(format!("two arcs that are well-conditioned: {what}"))
    }

    pub fn print(&self) {
        print_row(
            "two arcs, by plain geometry",
            ["cross", "don't", "disagree"],
        );
        print_row("well-conditioned", [self.crossing, self.apart, self.wrong]);
        print_row("others", ["agree", "disagree"]);
        print_row("", [self.close_agree, self.close_differ]);
        print_row(
            "the farthest that a point is off",
            [format!("{:.1e}", self.off)],
        );
    }

    pub fn missing(&self) -> Vec<String> {
        let due = [
            ("two well-conditioned arcs that cross", self.crossing),
            ("two well-conditioned arcs that don't", self.apart),
        ];
        let unseen = due.iter().filter(|(_, count)| *count == 0);
        unseen.map(|(name, _)| name.to_string()).collect()
    }
}

fn ends(command: &Command) -> [Vector; 4] {
    let [lon1, lat1, lon2, lat2, lon3, lat3, lon4, lat4] = command.floats;
    [(lon1, lat1), (lon2, lat2), (lon3, lat3), (lon4, lat4)].map(vector)
}

fn vector((lon, lat): (f64, f64)) -> Vector {
    let ((sin_lon, cos_lon), (sin_lat, cos_lat)) = (lon.sin_cos(), lat.sin_cos());
    [cos_lat * cos_lon, cos_lat * sin_lon, sin_lat]
}

fn point(reply: &[u8]) -> Vector {
    let float = |at: usize| {
        let bytes = reply[at..at + 8].try_into();
        f64::from_le_bytes(bytes.expect("a float has eight bytes"))
    };
    vector((float(3), float(11)))
}

/// How far each end is from the other arc's plane, as the volume that it spans with that arc's ends.
fn sides([a, b, c, d]: &[Vector; 4]) -> [f64; 4] {
    [
        volume(c, d, a),
        volume(c, d, b),
        volume(a, b, c),
        volume(a, b, d),
    ]
}

fn volume([x, y, z]: &Vector, [u, v, w]: &Vector, [p, q, r]: &Vector) -> f64 {
    p * (y * w - z * v) + q * (z * u - x * w) + r * (x * v - y * u)
}

/// The ends of each arc lie on different sides of the other's plane, and the arcs are not on opposite sides of the sphere: the triangles acb, cbd, bda
/// and dac turn the same way.
fn cross([a, b, c, d]: [f64; 4]) -> bool {
    let signs = [a, -b, -c, d].map(|side| side > 0.0);
    signs == [true; 4] || signs == [false; 4]
}

/// Where the first arc's chord comes through the second's plane.
fn crossing([a, b, ..]: &[Vector; 4], [side_a, side_b, ..]: [f64; 4]) -> Vector {
    let weights = [side_b.abs(), side_a.abs()];
    let sum = [0, 1, 2].map(|axis| weights[0] * a[axis] + weights[1] * b[axis]);
    let length = distance(sum, [0.0; 3]);
    sum.map(|part| part / length)
}

fn distance(a: Vector, b: Vector) -> f64 {
    let squares = a.iter().zip(b).map(|(a, b)| (a - b) * (a - b));
    squares.sum::<f64>().sqrt()
}
