//! What the reports come to, in sentences.

use super::alone::{self, Settled};
use super::names::listed;
use super::pair;

fn places_of<T>(replies: &[T], holds: impl Fn(&T) -> bool) -> Vec<usize> {
    let replies = replies.iter().enumerate();
    let holding = replies.filter(|(_, reply)| holds(reply));
    holding.map(|(place, _)| place).collect()
}

pub fn of_pair(replies: &[pair::Reply]) -> String {
    let count = replies.len();
    let differ = places_of(replies, |reply| reply.differs);
    match differ.len() {
        0 => "No reply differs between A and B. Where its two allowances differ, a reply is the same for every allowance from the smaller on."
            .to_string(),
        1 => format!(
            "1 of {count} replies differs between A and B: {}.",
            listed(&differ)
        ),
        some => format!(
            "{some} of {count} replies differ between A and B: {}.",
            listed(&differ)
        ),
    }
}

pub fn of_alone(replies: &[alone::Reply]) -> String {
    format!("{} {}", of_all(replies), of_own(replies))
}

/// What holds for every allowance.
fn of_all(replies: &[alone::Reply]) -> String {
    let least = replies.iter().filter_map(|reply| match reply.settled {
        Settled::From(least) => Some(least),
        _ => None,
    });
    let from = match least.max() {
        None | Some(0) => String::new(),
        Some(least) => format!(" from {least} on"),
    };
    let open = places_of(replies, |reply| reply.settled == Settled::NotBy255);
    if open.is_empty() {
        return format!("Every reply stays the same for every allowance{from}.");
    }
    let others = match replies.len() - open.len() {
        0 => String::new(),
        _ => format!(" Every other reply stays the same for every allowance{from}."),
    };
    let listed = listed(&open);
    format!(
        "An allowance of 255 does not settle {listed}: of a walk of 255 steps the step byte can't tell whether it has ended.{others}"
    )
}

/// What holds for the file's own allowances.
fn of_own(replies: &[alone::Reply]) -> String {
    let open = places_of(replies, |reply| !reply.own_settles());
    if open.is_empty() {
        return "This file's own allowances settle every reply.".to_string();
    }
    let changed = places_of(replies, |reply| reply.changes);
    let larger = match changed.len() {
        0 => String::new(),
        1 => format!(" A larger one changes the reply to {}.", listed(&changed)),
        _ => format!(" Larger ones change the replies to {}.", listed(&changed)),
    };
    format!(
        "This file's own allowances do not settle {}.{larger}",
        listed(&open)
    )
}
