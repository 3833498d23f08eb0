//! The words of the program: commands with their operands, kinds, and reasons of refusals.

use crate::commands::{
    row, Float, Row, ALLOWANCE, ARC, END, EQUATORIAL_CONE, PARALLEL, POLAR_CONE, PRECISION,
    TWO_ARCS,
};

/// A command as the text form has it.
pub struct Form {
    pub code: u8,
    pub name: &'static str,
    /// Each as the form shows it, and its column in a table.
    operands: &'static [[&'static str; 2]],
}

const LON1: [&str; 2] = ["LON1", "lon1"];
const LAT1: [&str; 2] = ["LAT1", "lat1"];
const LON2: [&str; 2] = ["LON2", "lon2"];
const LAT2: [&str; 2] = ["LAT2", "lat2"];
const LON3: [&str; 2] = ["LON3", "lon3"];
const LAT3: [&str; 2] = ["LAT3", "lat3"];
const LON4: [&str; 2] = ["LON4", "lon4"];
const LAT4: [&str; 2] = ["LAT4", "lat4"];
const Z: [&str; 2] = ["Z", "z"];
const Z0: [&str; 2] = ["Z0", "z0"];
const RADIUS: [&str; 2] = ["RADIUS", "radius"];
const LON_MOD: [&str; 2] = ["LON_MOD", "lon_mod_half_pi"];
const EAST: [&str; 2] = ["east|west", "east"];
const NORTH: [&str; 2] = ["north|south", "north"];

const fn form(code: u8, name: &'static str, operands: &'static [[&'static str; 2]]) -> Form {
    Form {
        code,
        name,
        operands,
    }
}

pub const FORMS: [Form; 8] = [
    form(PRECISION, "precision", &[["X", "precision"]]),
    form(ALLOWANCE, "allowance", &[["N", "allowance"]]),
    form(ARC, "arc", &[LON1, LAT1, LON2, LAT2]),
    form(EQUATORIAL_CONE, "cone-in-equator", &[Z, Z0, RADIUS, NORTH]),
    form(
        POLAR_CONE,
        "cone-in-cap",
        &[Z, LON_MOD, Z0, RADIUS, EAST, NORTH],
    ),
    form(PARALLEL, "parallel", &[LON1, LAT1, LON2, LAT2, Z]),
    form(
        TWO_ARCS,
        "two-arcs",
        &[LON1, LAT1, LON2, LAT2, LON3, LAT3, LON4, LAT4],
    ),
    form(END, "end", &[]),
];

/// The lines of a text that say what its angles are in.
pub const RADIANS: &str = "radians";
pub const DEGREES: &str = "degrees";

#[derive(Clone, Copy, PartialEq)]
pub enum Kind {
    Angle,
    Number,
    Byte,
}

pub struct Operand {
    pub name: &'static str,
    pub column: &'static str,
    pub kind: Kind,
}

impl Operand {
    /// A flag's words for 1 and for 0.
    pub fn flag(&self) -> Option<(&'static str, &'static str)> {
        self.name.split_once('|')
    }
}

impl Form {
    pub fn row(&self) -> Row {
        row(self.code).expect("a form's code is in the table")
    }

    pub fn operands(&self) -> impl Iterator<Item = Operand> {
        let floats = self.row().floats;
        let operand = move |(place, [name, column]): (usize, &[&'static str; 2])| Operand {
            name,
            column,
            kind: match floats.get(place) {
                Some(Float::Lon | Float::Lat | Float::LonModHalfPi) => Kind::Angle,
                Some(_) => Kind::Number,
                None => Kind::Byte,
            },
        };
        self.operands.iter().enumerate().map(operand)
    }

    /// The command as a text has it.
    pub fn usage(&self) -> String {
        let operands = self.operands.iter().map(|[name, _]| format!(" {name}"));
        format!("{}{}", self.name, operands.collect::<String>())
    }
}

pub fn of_code(code: u8) -> &'static Form {
    let mut forms = FORMS.iter();
    forms
        .find(|form| form.code == code)
        .expect("each code of the table has a form")
}

/// What a kind says of the answer to a command.
pub fn outcome(code: u8, kind: u8) -> &'static str {
    match (code, kind) {
        (_, 0) => "no such piece",
        (_, 1) => "no walk",
        (_, 2) => "height rejected",
        (_, 3) => "found",
        (_, 4) => "height not between the ends",
        (TWO_ARCS, 5) => "no crossing found",
        (_, 5) => "neither root passes",
        (_, 6) => "found by halving",
        (_, 7) => "not found by halving",
        _ => unreachable!("no answer has kind {kind}"),
    }
}

/// Why a file is refused, under 1 to 5, or a command. There is no 11 here: it is the error of the program `patterns`.
pub fn reason(number: u8) -> &'static str {
    match number {
        1 => "the file has no byte or more than 16,384",
        2 => "a command byte isn't in the table",
        3 => "operands are cut short or code 00 is missing",
        4 => "bytes follow code 00",
        5 => "the reply buffer is shorter than all replies",
        6 => "precision or allowance is not set",
        7 => "a float isn't finite",
        8 => "a north or east byte is neither 0 nor 1",
        9 => "an operand is outside its range",
        10 => "the arc can't be split",
        12 => "the arcs' planes can't be told apart, or an arc has none",
        _ => unreachable!("nothing is refused under {number}"),
    }
}
