//! Replies in words.

use super::names::{outcome, reason};
use super::numbers;
use super::replies::{Point, Replied, Slot};
use super::values::{line, Angles};
use super::wording::counted;

/// Kinds of which words say more, or something else.
const NO_PIECE: u8 = 0;
const NO_WALK: u8 = 1;
const BY_HALVING: [u8; 2] = [6, 7];

pub fn of_replies(job: &[u8], replies: &[Replied], angles: Angles) -> String {
    let mut text = String::new();
    for (replied, number) in replies.iter().zip(1..) {
        let command = line(replied.command.code, &job[replied.place + 1..], angles);
        text += &format!("{number:4}  {command}\n");
        for words in of_reply(replied, angles) {
            text += &format!("          {words}\n");
        }
    }
    text
}

fn of_reply(replied: &Replied, angles: Angles) -> Vec<String> {
    let status = replied.status();
    if status != 0 {
        return vec![format!("refused, status {status}: {}", reason(status))];
    }
    let slots = replied.slots();
    if slots.is_empty() {
        return vec!["set".to_string()];
    }
    let code = replied.command.code;
    let pieces = slots.iter().filter(|slot| slot.kind != NO_PIECE);
    let words: Vec<String> = pieces.map(|slot| of_slot(code, slot, angles)).collect();
    match words.is_empty() {
        true => vec![outcome(code, NO_PIECE).to_string()],
        false => words,
    }
}

fn of_slot(code: u8, slot: &Slot, angles: Angles) -> String {
    let region = slot.name.map_or(String::new(), |name| format!("{name}: "));
    let kind = outcome(code, slot.kind);
    let answer = match slot.steps.map(|steps| counted(steps.into(), "step")) {
        // Halvings are no steps.
        Some(steps) if BY_HALVING.contains(&slot.kind) => format!("after a walk of {steps} {kind}"),
        Some(steps) if slot.kind != NO_WALK => format!("{kind} after {steps}"),
        _ => kind.to_string(),
    };
    let point = match slot.point {
        Some(Point::LonLat(lon, lat)) => {
            let [lon, lat] = [lon, lat].map(|angle| angles.shown(angle.to_bits()));
            format!(" at longitude {lon}, latitude {lat}")
        }
        Some(Point::Height(z)) => format!(" at height {}", numbers::shown(z.to_bits())),
        None => String::new(),
    };
    format!("{region}{answer}{point}")
}
