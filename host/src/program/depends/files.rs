//! Accepted job files as the laws of allowances see them: the operands of code 02, and all the rest.

use crate::commands::{Command, ALLOWANCE};
use crate::program::replies::commands;

/// The places of the operands of code 02.
fn operands(job: &[u8]) -> impl Iterator<Item = usize> {
    let settings = commands(job).into_iter();
    let settings = settings.filter(|(_, command)| command.code == ALLOWANCE);
    settings.map(|(place, _)| place + 1)
}

/// Whether two files are alike outside the operands of code 02; if not, the first place where they aren't.
pub fn alike(a: &[u8], b: &[u8]) -> Result<(), usize> {
    let mut b = b.to_vec();
    for place in operands(a) {
        if let Some(byte) = b.get_mut(place) {
            *byte = a[place];
        }
    }
    let differ = a.iter().zip(&b).position(|(a, b)| a != b);
    match differ.or((a.len() != b.len()).then(|| a.len().min(b.len()))) {
        Some(place) => Err(place),
        None => Ok(()),
    }
}

/// The file with every allowance set to this one.
pub fn with_allowance(job: &[u8], allowance: u8) -> Vec<u8> {
    let mut other = job.to_vec();
    for place in operands(job) {
        other[place] = allowance;
    }
    other
}

/// The allowance that each command is run with: the operand of the last code 02 before it.
pub fn allowances(commands: impl Iterator<Item = Command>) -> Vec<Option<u8>> {
    let mut last = None;
    let before = |command: Command| {
        let own = last;
        if command.code == ALLOWANCE {
            last = Some(command.bytes[0]);
        }
        own
    };
    commands.map(before).collect()
}
