//! The reference, compiled from its own source with the edits of build/reference.rs, and a way to watch it at work.

// Document 01: "The reference is compiled with debug assertions off."
const _: () = assert!(!cfg!(debug_assertions));

include!(concat!(env!("OUT_DIR"), "/reference.rs"));

#[path = "rules/second_try.rs"]
pub mod second_try;
#[path = "rules/two_arcs.rs"]
pub mod two_arcs;

pub use special_points_finder::*;
pub use sph_geom::coo3d::*;

use crate::pattern;
use std::cell::{Cell, RefCell};
use std::f64::consts::PI;
use std::panic;

/// The first slot of each region.
const SOUTH: usize = 0;
pub const EQUATOR: usize = 2;
const NORTH: usize = 3;
/// A piece's place in its region.
const FIRST: usize = 0;
const SECOND: usize = 1;

/// The two longitude functions, where document 02's ask 2 has changed them.
pub const LONGITUDES: [&str; 2] = ["lonlat_of", "UnitVect3::lonlat"];
const LONLAT_OF: usize = 0;
const LONLAT: usize = 1;
/// Where a longitude has come to 2π, the sizes of y are told apart at these.
pub const SIZES_OF_Y: [f64; 2] = [f64::MIN_POSITIVE, 1e-30];
/// How often each function has come to 2π, by the size of y.
pub type WholeTurns = [[u32; SIZES_OF_Y.len() + 1]; LONGITUDES.len()];

/// Document 02, ask 5: "below π / 648000 radians, one division, which is one arcsecond".
pub const SHORT_LIMIT: f64 = PI / 648000.0;
/// Where the source has the flat rule end.
pub const OLD_SHORT_LIMIT: f64 = (1.0 / 3600.0) * (180.0 / PI);
/// From here to that limit the comparison has arcs to which the flat rule no longer applies.
pub const QUARTER_DEGREE: f64 = 0.25 * PI / 180.0;
/// The lengths of arcs are told apart at these.
pub const LENGTHS: [f64; 6] = [
    SHORT_LIMIT * (1.0 - 1e-9),
    SHORT_LIMIT,
    f64::from_bits(SHORT_LIMIT.to_bits() + 1),
    SHORT_LIMIT * (1.0 + 1e-9),
    QUARTER_DEGREE,
    OLD_SHORT_LIMIT,
];
/// Document 02, ask 6: "|y0| at most 1e-14".
const NEAR_MERIDIAN: f64 = 1e-14;
/// What is crossed, by a rule that length and y0 have decided.
pub const CROSSED: [&str; 4] = [
    "splits",
    "pieces in the equator",
    "pieces in a cap",
    "code 06's arcs",
];
const SPLITS: usize = 0;
const EQUATOR_PIECES: usize = 1;
const CAP_PIECES: usize = 2;
pub const PARALLELS: usize = 3;
/// How often each was crossed.
#[derive(Clone, Copy, Debug, Default)]
pub struct Crossed {
    /// By length, where it was not near-meridian.
    pub lengths: [[u32; LENGTHS.len() + 1]; CROSSED.len()],
    /// About both limits, from a tenth to ten times of each: near-meridian and short, near-meridian alone, short alone, neither.
    pub sides: [[u32; 4]; CROSSED.len()],
}

/// How far the reference has come with a slot, as document 01's kinds: 0 no piece, 1 a piece, 2 a walk, 3 a point, 4 no crossing. A crossing
/// at which it panics leaves a 2.
#[derive(Clone, Copy, Debug)]
pub struct Slot {
    pub kind: u8,
    pub steps: u8,
    /// Longitude and latitude, as patterns.
    pub point: [u64; 2],
}

impl Slot {
    /// Whether its kind is one of those at which a point stands, that of document 02's second try included.
    pub fn has_point(&self) -> bool {
        [3, FOUND_BY_HALVING].contains(&self.kind)
    }
}

/// Document 02, ask 7: "kind 6 with its longitude and latitude if found, 7 and zeros if not".
pub const FOUND_BY_HALVING: u8 = 6;
pub const NONE_BY_HALVING: u8 = 7;

/// The reference's work on the five slots of an arc. A cone's walk is told as the first slot's.
#[derive(Clone, Debug)]
pub struct Work {
    pub slots: [Slot; 5],
    /// The ends of the piece in the equator, in the source's order.
    pub in_equator: Option<[Coo3D; 2]>,
    /// The slots in the order in which they are worked out.
    pub order: [usize; 5],
    /// The slot that was worked on last.
    pub at: usize,
    pub whole_turns: WholeTurns,
    pub crossed: Crossed,
    /// The first slot of the region.
    region: usize,
    /// Length and |y0| of an arc whose crossing is not counted yet.
    arc: Option<[f64; 2]>,
}

const NO_WORK: Work = Work {
    slots: [Slot {
        kind: 0,
        steps: 0,
        point: [0; 2],
    }; 5],
    in_equator: None,
    order: [0, 1, 2, 3, 4],
    at: 0,
    whole_turns: [[0; SIZES_OF_Y.len() + 1]; LONGITUDES.len()],
    crossed: Crossed {
        lengths: [[0; LENGTHS.len() + 1]; CROSSED.len()],
        sides: [[0; 4]; CROSSED.len()],
    },
    region: 0,
    arc: None,
};

thread_local! {
    static WORK: RefCell<Work> = const { RefCell::new(NO_WORK) };
    static SIZES: RefCell<Vec<f64>> = const { RefCell::new(Vec::new()) };
    /// The arguments of the roots, under `root_arguments`.
    static ROOTS: RefCell<Option<Vec<f64>>> = const { RefCell::new(None) };
    static WATCHED: Cell<bool> = const { Cell::new(false) };
}

fn note(change: impl FnOnce(&mut Work)) {
    WORK.with_borrow_mut(change);
}

fn note_slot(change: impl FnOnce(&mut Slot)) {
    note(|work| change(&mut work.slots[work.at]));
}

/// Called where the reference begins with a cap, with the height of one end there.
fn cap_begins(z: f64) {
    note(|work| work.region = if z < 0.0 { SOUTH } else { NORTH });
}

/// Called where it works out the cap's second slot before the first.
fn second_comes_first() {
    note(|work| work.order.swap(work.region, work.region + 1));
}

/// Called where it begins with a piece of the region.
fn piece_begins(place: usize) {
    note(|work| work.at = work.region + place);
    note_slot(|slot| slot.kind = 1);
}

fn equator_begins(p1: &Coo3D, p2: &Coo3D) {
    note(|work| {
        work.region = EQUATOR;
        work.in_equator = Some([p1.clone(), p2.clone()]);
    });
    piece_begins(FIRST);
}

fn walk_begins() {
    note_slot(|slot| slot.kind = 2);
}

/// Called where a walk has made a step of this size.
fn step_made(size: f64) {
    SIZES.with_borrow_mut(|sizes| sizes.push(size));
    note_slot(|slot| slot.steps += 1);
}

/// Called with the piece's crossing at the height that the walk has reached, which it gives back.
fn crossed(crossing: Option<LonLat>) -> Option<LonLat> {
    note_slot(|slot| match &crossing {
        Some(point) => {
            slot.kind = 3;
            slot.point = [point.lon, point.lat].map(pattern);
        }
        None => slot.kind = 4,
    });
    let in_equator = WORK.with_borrow(|work| work.region == EQUATOR);
    count_arc(if in_equator {
        EQUATOR_PIECES
    } else {
        CAP_PIECES
    });
    crossing
}

/// Called where an arc's length and y0 decide on the rule by which it is crossed. Gives back the length.
fn measured(length: f64, y0: f64) -> f64 {
    note(|work| work.arc = Some([length, y0.abs()]));
    length
}

/// Called after a crossing, with what is crossed.
pub fn count_arc(crossed: usize) {
    note(|work| {
        let Some([length, y0]) = work.arc.take() else {
            return;
        };
        let near = y0 <= NEAR_MERIDIAN;
        if !near {
            let place = LENGTHS.partition_point(|least| *least <= length);
            work.crossed.lengths[crossed][place] += 1;
        }
        if is_about(NEAR_MERIDIAN, y0) && is_about(SHORT_LIMIT, length) {
            let [beside, longer] = [!near, length >= SHORT_LIMIT].map(usize::from);
            work.crossed.sides[crossed][2 * beside + longer] += 1;
        }
    });
}

fn is_about(limit: f64, x: f64) -> bool {
    (0.1 * limit..=10.0 * limit).contains(&x)
}

/// Called where one of the longitude functions has come to 2π, with the vector's y.
fn turned(function: usize, y: f64) {
    let size = SIZES_OF_Y.partition_point(|size| *size <= y.abs());
    note(|work| work.whole_turns[function][size] += 1);
}

/// The root in the reference's own text and in its angle functions: it notes its argument where those are wanted.
trait Noted {
    fn noted_root(self) -> Self;
}

impl Noted for f64 {
    fn noted_root(self) -> f64 {
        ROOTS.with_borrow_mut(|roots| {
            if let Some(arguments) = roots {
                arguments.push(self);
            }
        });
        self.sqrt()
    }
}

/// Document 01's angle functions, where each root that they take notes its argument too.
mod noted {
    use super::Noted;
    use crate::angles;

    pub fn atan2(y: f64, x: f64) -> f64 {
        angles::atan2_by(f64::noted_root, y, x)
    }

    pub fn acos(c: f64) -> f64 {
        angles::acos_by(f64::noted_root, c)
    }
}

/// The arguments of all roots that are taken in this work.
pub fn root_arguments(work: impl FnOnce()) -> Vec<f64> {
    ROOTS.set(Some(Vec::new()));
    work();
    ROOTS.take().unwrap_or_default()
}

/// Why the reference gave no answer.
#[derive(Clone, Copy, Debug, PartialEq)]
pub enum Panic {
    Unreachable,
    UnwrapOfNone,
    Other,
}

/// What the reference gave, and how it worked.
#[derive(Debug)]
pub struct Watched<T> {
    pub result: Result<T, Panic>,
    pub work: Work,
}

pub fn watch<T>(work: impl FnOnce() -> T + panic::UnwindSafe) -> Watched<T> {
    WORK.replace(NO_WORK);
    SIZES.with_borrow_mut(Vec::clear);
    let result = caught(work);
    let work = WORK.with_borrow(Work::clone);
    Watched { result, work }
}

/// The same for what is no work of the reference's own: what was seen and the sizes of the steps under the last `watch` stay.
pub fn caught<T>(work: impl FnOnce() -> T + panic::UnwindSafe) -> Result<T, Panic> {
    WATCHED.set(true);
    let result =
        panic::catch_unwind(work).map_err(|payload| match payload.downcast_ref::<&str>() {
            Some(text) if text.contains("unreachable code") => Panic::Unreachable,
            Some(text) if text.contains("`Option::unwrap()` on a `None`") => Panic::UnwrapOfNone,
            _ => Panic::Other,
        });
    WATCHED.set(false);
    result
}

/// The sizes of all steps made under the last `watch`.
pub fn step_sizes() -> Vec<f64> {
    SIZES.with_borrow(Vec::clone)
}

/// From here on a panic under `watch` or `caught` prints nothing.
pub fn silence_watched_panics() {
    let usual = panic::take_hook();
    panic::set_hook(Box::new(move |info| {
        if !WATCHED.get() {
            usual(info);
        }
    }));
}
