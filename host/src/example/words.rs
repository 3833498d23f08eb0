//! What examples/host.c must say of replies, worked out from the reference's and not from bytes; and the words that listings share with it.

use crate::commands::{ALLOWANCE, ARC, EQUATORIAL_CONE, PARALLEL, POLAR_CONE, PRECISION, TWO_ARCS};
use crate::reference::Slot;
use crate::rules::{Content, Reply};

pub const SLOTS: [&str; 5] = [
    "south cap, first",
    "south cap, second",
    "equator",
    "north cap, first",
    "north cap, second",
];
const POINT: [&str; 2] = ["longitude", "latitude"];

pub fn of_reply(reply: &Reply) -> String {
    let (code, status) = (reply.command.code, reply.status);
    let name = name(code);
    let answer = match &reply.content {
        Content::Zeros => String::new(),
        Content::Slots(slots) => SLOTS.iter().zip(slots).map(of_slot).collect(),
        Content::Height(slot) => format!("\n    {}{}", walked(slot), at(slot, ["height"])),
        Content::Crossing(slot) => format!("\n    {}{}", crossing(code, slot), at(slot, POINT)),
    };
    format!("{name}, status {status}: {}{answer}\n", reason(status))
}

fn of_slot((name, slot): (&&str, &Option<Slot>)) -> String {
    match slot.expect("the reference has come to each slot of the example") {
        Slot { kind: 0, .. } => String::new(),
        slot => format!("\n    {name}: {}{}", walked(&slot), at(&slot, POINT)),
    }
}

fn walked(slot: &Slot) -> String {
    format!("{}, {} steps walked", kind(slot), slot.steps)
}

/// The floats of a slot that has a point.
fn at<const N: usize>(slot: &Slot, names: [&str; N]) -> String {
    let floats = slot.point.map(f64::from_bits);
    let floats = names.iter().zip(floats).filter(|_| slot.has_point());
    floats
        .map(|(name, x)| format!(", {name} {x:.12}"))
        .collect()
}

fn name(code: u8) -> &'static str {
    match code {
        PRECISION => "precision",
        ALLOWANCE => "allowance",
        ARC => "arc",
        EQUATORIAL_CONE => "equatorial cone",
        POLAR_CONE => "polar cone",
        PARALLEL => "parallel",
        TWO_ARCS => "two arcs",
        _ => unreachable!("code {code:02x} has no reply"),
    }
}

pub fn kind(slot: &Slot) -> &'static str {
    match slot.kind {
        0 => "no such piece",
        1 => "no walk",
        2 => "height rejected",
        3 => "found",
        4 => "height not between the ends",
        5 => "neither root passes",
        6 => "found by halving",
        7 => "not found by halving",
        kind => unreachable!("no words stand for kind {kind}"),
    }
}

/// The kind of a parallel's answer, or of that for two arcs.
pub fn crossing(code: u8, slot: &Slot) -> &'static str {
    match (code, slot.kind) {
        (TWO_ARCS, 5) => "no crossing found",
        _ => kind(slot),
    }
}

pub fn reason(status: u8) -> &'static str {
    match status {
        0 => "accepted",
        6 => "precision or allowance is not set",
        7 => "a float isn't finite",
        8 => "a north or east byte is neither 0 nor 1",
        9 => "an operand is outside its range",
        10 => "the arc can't be split",
        12 => "the arcs' planes can't be told apart, or an arc has none",
        _ => unreachable!("there is no status {status}"),
    }
}
