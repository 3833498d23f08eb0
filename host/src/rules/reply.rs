//! The reply to one command.

use crate::commands::{Command, SLOT};
use crate::reference::{
    Coo3D, Crossed, Panic, Slot, WholeTurns, EQUATOR, FOUND_BY_HALVING, NONE_BY_HALVING,
};
use std::f64::consts::TAU;

/// For an answer or a panic of the reference's that no kind stands for.
pub const NO_KIND: u8 = u8::MAX;

/// What follows code and status.
#[derive(Clone, Copy, Debug)]
pub enum Content {
    /// Zeros of the width that the code has, or nothing.
    Zeros,
    /// Of a slot that the reference has not come to nothing is known.
    Slots([Option<Slot>; 5]),
    /// Kind, steps and z, which is the slot's first number.
    Height(Slot),
    /// Kind, longitude and latitude.
    Crossing(Slot),
}

#[derive(Clone, Debug)]
pub struct Reply {
    pub command: Command,
    pub status: u8,
    pub content: Content,
    /// Why the reference gave no answer.
    pub panic: Option<Panic>,
    /// How often a longitude came to 2π in its work.
    pub whole_turns: WholeTurns,
    /// What was crossed there by a rule that length and y0 decided.
    pub crossed: Crossed,
    /// The ends of an arc's piece in the equator, in the source's order.
    pub piece: Option<[Coo3D; 2]>,
}

impl Reply {
    /// Code and status, with zeros after them or nothing.
    pub fn with_status(command: Command, status: u8) -> Self {
        Reply {
            command,
            status,
            content: Content::Zeros,
            panic: None,
            whole_turns: WholeTurns::default(),
            crossed: Crossed::default(),
            piece: None,
        }
    }

    pub fn width(&self) -> usize {
        self.command.row().reply
    }

    /// The number of slots of which nothing is known.
    pub fn unknown_slots(&self) -> usize {
        match &self.content {
            Content::Slots(slots) => slots.iter().filter(|slot| slot.is_none()).count(),
            _ => 0,
        }
    }

    /// The ends of the piece in the equator, and the kind that its slot has.
    pub fn in_equator(&self) -> Option<(&[Coo3D; 2], u8)> {
        match (&self.piece, &self.content) {
            (Some(ends), Content::Slots(slots)) => slots[EQUATOR].map(|slot| (ends, slot.kind)),
            _ => None,
        }
    }

    /// The longitudes of the points in it.
    pub fn longitudes(&self) -> Vec<f64> {
        let slots = match self.content {
            Content::Slots(slots) => slots.to_vec(),
            Content::Crossing(slot) => vec![Some(slot)],
            Content::Zeros | Content::Height(_) => vec![],
        };
        let found = slots.into_iter().flatten().filter(Slot::has_point);
        found.map(|slot| f64::from_bits(slot.point[0])).collect()
    }

    /// Document 02, ask 2: a longitude is "at least 0 and below 2π, or NaN".
    pub fn is_in_turn(&self) -> bool {
        let in_turn = |lon: &f64| lon.is_nan() || (0.0..TAU).contains(lon);
        self.longitudes().iter().all(in_turn)
    }

    /// Writes the reply, with zeros for what is not known.
    pub fn write(&self, replies: &mut Vec<u8>) {
        let end = replies.len() + self.width();
        replies.extend([self.command.code, self.status]);
        match &self.content {
            Content::Zeros => {}
            Content::Slots(slots) => {
                for slot in slots {
                    replies.extend(slot.map_or([0; SLOT], |slot| bytes_of(&slot)));
                }
            }
            Content::Height(slot) => replies.extend(&bytes_of(slot)[..10]),
            Content::Crossing(slot) => {
                replies.push(slot.kind);
                replies.extend(&bytes_of(slot)[2..]);
            }
        }
        replies.resize(end, 0);
    }

    /// Whether these bytes are this reply, where it is known, and have the form of a slot elsewhere.
    pub fn agrees(&self, bytes: &[u8]) -> bool {
        let mut expected = Vec::with_capacity(bytes.len());
        self.write(&mut expected);
        if let Content::Slots(slots) = &self.content {
            for (place, _) in slots.iter().enumerate().filter(|(_, slot)| slot.is_none()) {
                let part = 2 + place * SLOT..2 + (place + 1) * SLOT;
                if is_well_formed(place, &bytes[part.clone()]) {
                    expected[part.clone()].copy_from_slice(&bytes[part]);
                }
            }
        }
        expected == bytes
    }
}

fn bytes_of(slot: &Slot) -> [u8; SLOT] {
    let mut bytes = [0; SLOT];
    bytes[0] = slot.kind;
    bytes[1] = slot.steps;
    for (bytes, bits) in bytes[2..].chunks_exact_mut(8).zip(slot.point) {
        bytes.copy_from_slice(&bits.to_le_bytes());
    }
    bytes
}

/// Whether a slot has a kind that can be there, and is zero where this carries nothing: kind 2 stands in the caps alone, the second try's two at the
/// equator alone.
fn is_well_formed(place: usize, slot: &[u8]) -> bool {
    let is_zero = |bytes: &[u8]| bytes.iter().all(|byte| *byte == 0);
    match (slot[0], place) {
        (0 | 1, _) => is_zero(&slot[1..]),
        (NONE_BY_HALVING, EQUATOR) | (4 | 5, _) => is_zero(&slot[2..]),
        (2, place) => place != EQUATOR && is_zero(&slot[2..]),
        (kind, place) => kind == 3 || (kind, place) == (FOUND_BY_HALVING, EQUATOR),
    }
}
