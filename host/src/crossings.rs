//! Document 02, ask 3: how it came to the answers for two arcs, by the rule's own tests.

use crate::commands::TWO_ARCS;
use crate::outcomes::print_row;
use crate::reference::two_arcs::{arcs, candidates, cross};
use crate::reference::Vec3;
use crate::rules::Reply;

/// What may be seen of two arcs with the status 0 or 12.
#[derive(Clone, Copy, Debug, PartialEq)]
pub enum Event {
    First,
    Opposite,
    Neither,
    /// Both pass, so that it counts which comes first.
    Both,
    /// The sum's test, and no other, keeps out a candidate that would be answered: it lies on a long arc's far side.
    FarSide,
    NoNorm,
    /// No norm, although the vector isn't zero.
    Underflow,
}
use Event::{Both, FarSide, First, Neither, NoNorm, Opposite, Underflow};

const EVENTS: [(Event, &str); 7] = [
    (First, "the candidate is answered"),
    (Opposite, "its opposite is answered"),
    (Neither, "neither passes"),
    (Both, "both would pass"),
    (FarSide, "the sum alone keeps a candidate out"),
    (NoNorm, "the norm is zero"),
    (Underflow, "the norm underflows to zero"),
];

#[derive(Clone, Default)]
pub struct Crossings([u64; EVENTS.len()]);

impl Crossings {
    pub fn count(&mut self, reply: &Reply) {
        for event in events(reply) {
            self.0[event as usize] += 1;
        }
    }

    pub fn seen(&self, event: Event) -> u64 {
        self.0[event as usize]
    }

    /// How often the event has been seen that was seen least.
    pub fn least(&self) -> u64 {
        self.0.into_iter().min().unwrap_or(0)
    }

    /// The same of those that a reply adds to.
    pub fn least_of(&self, reply: &Reply) -> u64 {
        let counts = events(reply).into_iter().map(|event| self.seen(event));
        counts.min().unwrap_or(u64::MAX)
    }

    pub fn print(&self) {
        for (event, name) in EVENTS {
            print_row(&format!("two arcs: {name}"), [self.seen(event)]);
        }
    }

    /// What of these events, which are due, was never seen, after the name of the inputs that are made for them.
    pub fn missing_of(&self, inputs: &str, due: &[Event]) -> Vec<String> {
        let unseen = EVENTS
            .iter()
            .filter(|(event, _)| due.contains(event) && self.seen(*event) == 0);
        unseen
            .map(|(_, name)| format!("{inputs}: {name}"))
            .collect()
    }

    pub fn missing(&self) -> Vec<String> {
        self.missing_of("two arcs", &EVENTS.map(|(event, _)| event))
    }
}

fn events(reply: &Reply) -> Vec<Event> {
    if reply.command.code != TWO_ARCS || ![0, 12].contains(&reply.status) {
        return Vec::new();
    }
    let arcs = arcs(&reply.command.floats);
    let Ok(candidates) = candidates(&arcs) else {
        let vector = cross(&arcs);
        let is_zero = [vector.x(), vector.y(), vector.z()] == [0.0; 3];
        return if is_zero {
            vec![NoNorm]
        } else {
            vec![NoNorm, Underflow]
        };
    };
    let near = candidates
        .each_ref()
        .map(|it| arcs.iter().all(|arc| arc.is_near(it)));
    let before = candidates
        .each_ref()
        .map(|it| arcs.iter().all(|arc| arc.is_before(it)));
    let passes = [near[0] && before[0], near[1] && before[1]];
    let passing: &[Event] = match passes {
        [true, true] => &[First, Both],
        [true, false] => &[First],
        [false, true] => &[Opposite],
        [false, false] => &[Neither],
    };
    let first = |[candidate, opposite]: [bool; 2]| (candidate, candidate || opposite);
    let far_side = (first(near) != first(passes)).then_some(FarSide);
    passing.iter().copied().chain(far_side).collect()
}
