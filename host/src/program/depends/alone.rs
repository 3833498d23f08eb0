//! One accepted job file: from which allowance on each reply no longer changes.

use super::accepted;
use super::files::{allowances, with_allowance};
use crate::commands::Command;
use crate::program::replies::Replied;

/// The reply to a command, under every allowance.
pub struct Reply {
    pub command: Command,
    /// The allowance that the file has for it.
    pub own: Option<u8>,
    pub settled: Settled,
    /// Whether the reply with 255 is another than the file's own.
    pub changes: bool,
}

#[derive(Clone, Copy, Debug, PartialEq)]
pub enum Settled {
    /// No step is taken, whatever the allowance.
    Always,
    /// The least allowance from which on it is the same.
    From(u8),
    /// A walk takes 255 steps, of which the step byte can't tell whether it has ended.
    NotBy255,
}

impl Reply {
    /// Whether every allowance from the file's own on gives the same reply.
    pub fn own_settles(&self) -> bool {
        match (self.settled, self.own) {
            (Settled::Always, _) => true,
            (Settled::From(least), Some(own)) => least <= own,
            _ => false,
        }
    }
}

/// Runs an accepted file, which has these replies, with every allowance 255: the greatest step byte of a reply, if below 255, is the least
/// allowance that settles it.
pub fn settle(job: &[u8], replies: &[Replied]) -> Vec<Reply> {
    let own = allowances(replies.iter().map(|reply| reply.command));
    let with_255 = accepted(&with_allowance(job, u8::MAX));
    let settled = replies.iter().zip(own).zip(&with_255);
    let settled = settled.map(|((reply, own), with_255)| Reply {
        command: reply.command,
        own,
        settled: match with_255.slots().iter().filter_map(|slot| slot.steps).max() {
            None | Some(0) => Settled::Always,
            Some(u8::MAX) => Settled::NotBy255,
            Some(steps) => Settled::From(steps),
        },
        changes: reply.reply != with_255.reply,
    });
    settled.collect()
}
