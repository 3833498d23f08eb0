//! Two accepted job files that are alike outside the operands of code 02: which replies differ.

use super::files::allowances;
use crate::commands::Command;
use crate::program::replies::Replied;

/// The replies to a command in both files.
pub struct Reply {
    pub command: Command,
    pub allowances: [Option<u8>; 2],
    pub differs: bool,
    pub walks: Vec<Walk>,
}

/// A walk that takes a step in one of the files. Where its two allowances differ each walk does, as its limit is far below the first step size, 1.
pub struct Walk {
    /// The slot's number and name; a cone has one slot without a name.
    pub slot: usize,
    pub name: Option<&'static str>,
    pub steps: [u8; 2],
}

impl Walk {
    pub fn differs(&self) -> bool {
        self.steps[0] != self.steps[1]
    }
}

/// Compares the replies to two files that are alike.
pub fn compare(a: &[Replied], b: &[Replied]) -> Vec<Reply> {
    let [of_a, of_b] = [a, b].map(|replies| allowances(replies.iter().map(|reply| reply.command)));
    let replies = a.iter().zip(b).zip(of_a.into_iter().zip(of_b));
    let compared = replies.map(|((a, b), (of_a, of_b))| Reply {
        command: a.command,
        allowances: [of_a, of_b],
        differs: a.reply != b.reply,
        walks: walks(a, b),
    });
    compared.collect()
}

fn walks(a: &Replied, b: &Replied) -> Vec<Walk> {
    let slots = a.slots().into_iter().zip(b.slots()).enumerate();
    let walks = slots.filter_map(|(slot, (a, b))| {
        let steps = [a.steps?, b.steps?];
        let name = a.name;
        (steps != [0, 0]).then_some(Walk { slot, name, steps })
    });
    walks.collect()
}
