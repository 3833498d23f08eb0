//! Document 02, ask 7: what was seen of second tries at the equator, by the rule's own tests, and where a wrong rule would have given another answer.

use crate::commands::Command;
use crate::outcomes::print_row;
use crate::pattern;
use crate::reference::second_try::{self, Middle, Slope, TIMES};
use crate::reference::{
    caught, Coo3D, Panic, Vec3, FOUND_BY_HALVING, NONE_BY_HALVING, TRANSITION_Z,
};
use crate::rules::{lower_first, Reply};

#[derive(Clone, Copy, Debug, PartialEq)]
enum Event {
    /// NaNs among the slopes.
    AtZ1,
    AtZ2,
    AtMiddle,
    /// A middle replaces z2 after one with slope 0 has replaced z1: compared with the present z1's, every slope would have the same sign from there on.
    AfterZero,
    /// Why there is no point.
    NotBetween,
    NoRoot,
    /// A point at a height that a walk's may not have.
    PastT,
    /// Other answers.
    Fewer,
    More,
    LastZ1,
    LastZ2,
    WholeArc,
}
use Event::{
    AfterZero, AtMiddle, AtZ1, AtZ2, Fewer, LastZ1, LastZ2, More, NoRoot, NotBetween, PastT,
    WholeArc,
};

const EVENTS: [(Event, &str); 12] = [
    (AtZ1, "the slope at z1 is NaN"),
    (AtZ2, "the slope at z2 is NaN"),
    (AtMiddle, "that at a middle is"),
    (AfterZero, "a middle replaces z2, an earlier has slope 0"),
    (NotBetween, "none, not between the ends"),
    (NoRoot, "none, neither root passes"),
    (PastT, "found at T or past it"),
    (Fewer, "59 halvings would give another"),
    (More, "61 halvings would"),
    (LastZ1, "the last z1 would"),
    (LastZ2, "the last z2 would"),
    (WholeArc, "the whole arc's crossing would"),
];

#[derive(Default)]
pub struct SecondTries([u64; EVENTS.len()]);

impl SecondTries {
    pub fn count(&mut self, reply: &Reply) {
        for event in events(reply) {
            self.0[event as usize] += 1;
        }
    }

    /// How often the event has been seen that was seen least.
    pub fn least(&self) -> u64 {
        self.0.into_iter().min().unwrap_or(0)
    }

    /// The same of those that a reply adds to.
    pub fn least_of(&self, reply: &Reply) -> u64 {
        let counts = events(reply)
            .into_iter()
            .map(|event| self.0[event as usize]);
        counts.min().unwrap_or(u64::MAX)
    }

    pub fn print(&self) {
        for (event, name) in EVENTS {
            print_row(&format!("second try: {name}"), [self.0[event as usize]]);
        }
    }

    /// What is due and was never seen.
    pub fn missing(&self) -> Vec<String> {
        let unseen = EVENTS
            .iter()
            .filter(|(event, _)| self.0[*event as usize] == 0);
        unseen
            .map(|(_, name)| format!("second try: {name}"))
            .collect()
    }
}

fn events(reply: &Reply) -> Vec<Event> {
    let Some((ends, FOUND_BY_HALVING | NONE_BY_HALVING)) = reply.in_equator() else {
        return Vec::new();
    };
    // One more than the rule has.
    let middles = second_try::middles(ends, TIMES + 1);
    let seen = of_slopes(ends, &middles[..TIMES]).into_iter();
    let seen = seen.chain(of_answers(ends, &middles, &reply.command));
    seen.filter_map(|(event, seen)| seen.then_some(event))
        .collect()
}

fn of_slopes(ends: &[Coo3D; 2], middles: &[Middle]) -> [(Event, bool); 4] {
    let slope = Slope::on(ends);
    let [at_z1, at_z2] = ends.each_ref().map(|end| slope.at(end.z()).is_nan());
    let mut from_zero = middles.iter().skip_while(|middle| middle.slope != 0.0);
    [
        (AtZ1, at_z1),
        (AtZ2, at_z2),
        (AtMiddle, middles.iter().any(|middle| middle.slope.is_nan())),
        (AfterZero, from_zero.any(|middle| !middle.replaces_z1)),
    ]
}

fn of_answers(ends: &[Coo3D; 2], middles: &[Middle], arc: &Command) -> [(Event, bool); 8] {
    let last = middles[TIMES - 1].z;
    let right = crossing(ends, last);
    let is_other = |ends, z| crossing(ends, z).ok().flatten() != right.ok().flatten();
    let end = |place: usize| {
        let mut tried = middles[..TIMES].iter().rev();
        let replacing = tried.find(|middle| middle.replaces_z1 == (place == 0));
        replacing.map_or(ends[place].z(), |middle| middle.z)
    };
    [
        (NotBetween, right == Ok(None)),
        (NoRoot, right.is_err()),
        (
            PastT,
            matches!(right, Ok(Some(_))) && last.abs() >= TRANSITION_Z,
        ),
        (Fewer, is_other(ends, middles[TIMES - 2].z)),
        (More, is_other(ends, middles[TIMES].z)),
        (LastZ1, is_other(ends, end(0))),
        (LastZ2, is_other(ends, end(1))),
        (WholeArc, is_other(&lower_first(arc), last)),
    ]
}

/// The point's patterns, if there is one.
fn crossing(ends: &[Coo3D; 2], z: f64) -> Result<Option<[u64; 2]>, Panic> {
    let point = caught(|| second_try::crossing(ends, z))?;
    Ok(point.map(|point| [point.lon, point.lat].map(pattern)))
}
