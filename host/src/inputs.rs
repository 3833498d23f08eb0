//! What the comparison of the finder runs on, in classes.

pub mod cones;
pub mod ends;
mod operands;
pub mod parallels;
mod second_try;
mod short;
pub mod signs;
pub mod two_arcs;

pub use crate::reference::TRANSITION_Z;
pub use operands::NOT_FINITE;

use crate::angles;
use crate::commands::{Command, ARC};
use crate::random::Random;
use crate::rules::{self, Settings};

/// The classes that are made for a longitude of a whole turn.
pub const BESIDE_LONGITUDE_0: &str = "beside longitude 0";
/// What the names of the classes of code 03 and of code 07 begin with.
pub const ARCS: &str = "arc";
pub const TWO_ARCS: &str = "two arcs";

/// Longitude and latitude of one end of an arc, and of the other.
pub type Ends = [f64; 4];

/// A kind of inputs: its name, and how to draw one.
pub type Class<T> = (&'static str, fn(&mut Random) -> T);

/// A job and the settings to run it with.
pub struct Input {
    pub job: Command,
    pub precision: f64,
    pub allowance: u8,
}

/// A class of inputs with its full name.
pub struct Inputs {
    pub name: String,
    pub draw: Box<dyn Fn(&mut Random) -> Input>,
}

/// Every class: first those whose operands lie within document 01's ranges, then those in which they may not.
pub fn classes() -> Vec<Inputs> {
    let mut classes = Vec::new();
    for (name, draw) in ends::CLASSES.into_iter().chain(signs::CLASSES) {
        classes.push(class(ARCS, name, move |random| arc(random, draw)));
    }
    classes.push(at_a_step(ARCS, |random| arc(random, ends::special)));
    for (name, draw) in cones::EQUATORIAL {
        classes.push(class("equatorial cone", name, draw));
    }
    classes.push(at_a_step("equatorial cone", cones::advised_in_eqr));
    for (name, draw) in cones::POLAR {
        classes.push(class("polar cone", name, draw));
    }
    classes.push(at_a_step("polar cone", cones::advised_in_pc));
    for (name, draw) in parallels::CLASSES {
        classes.push(class("parallel", name, draw));
    }
    for ((name, draw), _) in two_arcs::CLASSES {
        classes.push(class(TWO_ARCS, name, draw));
    }
    for (name, change) in operands::CHANGES {
        let changed = move |random: &mut Random| {
            let mut job = any(random);
            change(random, &mut job);
            job
        };
        classes.push(class("any job", name, changed));
    }
    classes
}

fn class(of: &str, name: &str, draw: impl Fn(&mut Random) -> Command + 'static) -> Inputs {
    Inputs {
        name: format!("{of}, {name}"),
        draw: Box::new(move |random| Input {
            job: draw(random),
            precision: precision(random),
            allowance: allowance(random),
        }),
    }
}

/// With a precision that is the size of one of the job's steps: a walk ends at a size equal to its limit.
fn at_a_step(of: &str, draw: fn(&mut Random) -> Command) -> Inputs {
    Inputs {
        name: format!("{of}, precision at a step"),
        draw: Box::new(move |random| {
            let (job, allowance) = (draw(random), allowance(random));
            let sizes = rules::step_sizes(&job, &Settings::new(0.0, allowance));
            let precision = if sizes.is_empty() {
                0.0
            } else {
                random.one_of(&sizes)
            };
            Input {
                job,
                precision,
                allowance,
            }
        }),
    }
}

/// A job of any code, within the ranges.
pub fn any(random: &mut Random) -> Command {
    match random.below(5) {
        0 => arc(random, ends::any),
        1 => random.one_of(&cones::EQUATORIAL).1(random),
        2 => random.one_of(&cones::POLAR).1(random),
        3 => random.one_of(&parallels::CLASSES).1(random),
        _ => two_arcs::any(random),
    }
}

/// An arc or a parallel both of whose ends lie so close to longitude 0 that a longitude may come to 2π.
pub fn beside_longitude_0(random: &mut Random) -> Command {
    if random.flip() {
        arc(random, ends::beside_longitude_0)
    } else {
        parallels::beside_longitude_0(random)
    }
}

/// An arc or a parallel about one arcsecond long, or one that is no longer flat.
pub fn short_arc(random: &mut Random) -> Command {
    if random.flip() {
        arc(random, short::any)
    } else {
        parallels::short_arc(random)
    }
}

/// An arc with ends on quarters' borders, or at other values where a rule changes.
pub fn on_borders(random: &mut Random) -> Command {
    arc(random, ends::on_borders_or_boundaries)
}

/// An arc that is often tried a second time.
pub fn tried_again(random: &mut Random) -> Command {
    arc(random, second_try::any)
}

/// An arc about the limits of signs by order, or one of which they often tell nothing.
pub fn about_signs(random: &mut Random) -> Command {
    let draw = random.one_of(&[signs::any, second_try::any, ends::any]);
    arc(random, draw)
}

/// An arc between two ends, in either order.
fn arc(random: &mut Random, draw: fn(&mut Random) -> Ends) -> Command {
    let [lon1, lat1, lon2, lat2] = draw(random);
    let ends = if random.flip() {
        [lon2, lat2, lon1, lat1]
    } else {
        [lon1, lat1, lon2, lat2]
    };
    Command::new(ARC, ends, [])
}

pub fn precision(random: &mut Random) -> f64 {
    match random.below(10) {
        0..=4 => random.power_of_ten(-16.0, -3.0),
        5 | 6 => random.one_of(&[1e-3, 1e-6, 1e-8, 1e-9, 1e-10, 1e-12, 1e-15, 1e-16]),
        7 => random.one_of(&[0.0, -0.0, 5e-324, 1e-300]),
        8 => -random.power_of_ten(-17.0, 300.0),
        _ => random.one_of(&[0.01, 0.02, 0.04, 1.0, 1e300, f64::MAX]),
    }
}

pub fn allowance(random: &mut Random) -> u8 {
    let bound = random.one_of(&[4, 31, 256]);
    random.below(bound) as u8
}

// Document 01's angle functions give the same bits on every machine.

fn sin(angle: f64) -> f64 {
    angles::sin_cos(angle).0
}

fn cos(angle: f64) -> f64 {
    angles::sin_cos(angle).1
}

fn asin(sine: f64) -> f64 {
    angles::atan2(sine, ((1.0 - sine) * (1.0 + sine)).sqrt())
}

fn atan(tangent: f64) -> f64 {
    angles::atan2(tangent, 1.0)
}
