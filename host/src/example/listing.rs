//! What `finder list` must say of replies in words, worked out from the reference's.

use super::words::{crossing, kind, reason, SLOTS};
use crate::commands::{
    Command, ALLOWANCE, ARC, EQUATORIAL_CONE, PARALLEL, POLAR_CONE, PRECISION, TWO_ARCS,
};
use crate::reference::Slot;
use crate::rules::{Content, Reply};

pub fn of_replies(replies: &[Reply]) -> String {
    let mut text = String::new();
    for (place, reply) in replies.iter().enumerate() {
        let command = operands(&reply.command);
        text += &format!("{:>4}  {command}\n", place + 1);
        for line in answer(reply) {
            text += &format!("{:10}{line}\n", "");
        }
    }
    text
}

pub fn name(code: u8) -> &'static str {
    match code {
        PRECISION => "precision",
        ALLOWANCE => "allowance",
        ARC => "arc",
        EQUATORIAL_CONE => "cone-in-equator",
        POLAR_CONE => "cone-in-cap",
        PARALLEL => "parallel",
        TWO_ARCS => "two-arcs",
        _ => unreachable!("code {code:02x} has no reply"),
    }
}

/// The command; both cones of the example have all flags set.
fn operands(command: &Command) -> String {
    let name = name(command.code);
    let floats = command.operands().map(|(_, x)| format!(" {x:?}"));
    let bytes = match command.code {
        ALLOWANCE => format!(" {}", command.bytes[0]),
        EQUATORIAL_CONE => " north".to_string(),
        POLAR_CONE => " east north".to_string(),
        _ => String::new(),
    };
    format!("{name}{}{bytes}", floats.collect::<String>())
}

fn answer(reply: &Reply) -> Vec<String> {
    match &reply.content {
        Content::Zeros if reply.status != 0 => {
            let status = reply.status;
            vec![format!("refused, status {status}: {}", reason(status))]
        }
        Content::Zeros => vec!["set".to_string()],
        Content::Slots(slots) => {
            let slots = SLOTS.iter().zip(slots.iter().flatten());
            let pieces = slots.filter(|(_, slot)| slot.kind != 0);
            let words = pieces.map(|(name, slot)| format!("{name}: {}{}", walked(slot), at(slot)));
            words.collect()
        }
        Content::Height(slot) => {
            let height = f64::from_bits(slot.point[0]);
            vec![format!("{} at height {height:?}", walked(slot))]
        }
        Content::Crossing(slot) => {
            vec![format!(
                "{}{}",
                crossing(reply.command.code, slot),
                at(slot)
            )]
        }
    }
}

fn walked(slot: &Slot) -> String {
    match slot.kind {
        1 => kind(slot).to_string(),
        6 | 7 => format!("after a walk of {} steps {}", slot.steps, kind(slot)),
        _ => format!("{} after {} steps", kind(slot), slot.steps),
    }
}

fn at(slot: &Slot) -> String {
    let [lon, lat] = slot.point.map(f64::from_bits);
    match slot.has_point() {
        true => format!(" at longitude {lon:?}, latitude {lat:?}"),
        false => String::new(),
    }
}
