//! What the reports must be, by document 01's rules and the reference alone.

use crate::commands::{Command, ALLOWANCE, END, REPLY_BUFFER};
use crate::job_files::file_of;
use crate::program::depends::alone::Settled;
use crate::program::depends::pair;
use crate::rules::{self, Content, Reply};

/// The replies to a command in two files.
pub struct Pair {
    allowances: [Option<u8>; 2],
    pub differs: bool,
    /// The slot of each walk, and its steps in both.
    pub walks: Vec<(usize, [u8; 2])>,
}

impl Pair {
    /// Where the replies differ every walk must be there, else those that take a step.
    pub fn is(&self, report: &pair::Reply) -> bool {
        let reported = report.walks.iter().map(|walk| (walk.slot, walk.steps));
        let walks = self.walks.iter().copied();
        let walks = walks.filter(|(_, steps)| self.differs || *steps != [0, 0]);
        report.allowances == self.allowances && report.differs == self.differs && reported.eq(walks)
    }
}

/// The reply to a command under every allowance.
pub struct Alone {
    pub own: Option<u8>,
    pub settled: Settled,
    pub own_settles: bool,
    /// Whether the reply with 255 is another than the file's own.
    pub changes: bool,
}

/// For each command of two alike files; nothing where the reference did not come to a slot.
pub fn pair(a: &[u8], b: &[u8]) -> Vec<Option<Pair>> {
    let [of_a, of_b] = [a, b].map(allowances);
    let replies = replies(a).into_iter().zip(replies(b));
    let paired = replies.enumerate().map(|(place, (in_a, in_b))| {
        let walks = walks(&in_a).into_iter().zip(walks(&in_b));
        Some(Pair {
            allowances: [of_a[place], of_b[place]],
            differs: bytes(&in_a)? != bytes(&in_b)?,
            walks: walks
                .map(|((slot, first), (_, second))| (slot, [first, second]))
                .collect(),
        })
    });
    paired.collect()
}

/// For each command of a file, by runs with every allowance from 0 to 255.
pub fn alone(file: &[u8]) -> Vec<Option<Alone>> {
    let runs: Vec<_> = (0..=u8::MAX)
        .map(|allowance| replies(&with_allowance(file, allowance)))
        .collect();
    let (own, own_replies) = (allowances(file), replies(file));
    let reply = |place: usize| {
        let under = runs.iter().map(|replies| bytes(&replies[place]));
        let under: Vec<_> = under.collect::<Option<_>>()?;
        let last = &under[255];
        let same = under.iter().rev().take_while(|bytes| *bytes == last);
        let least = 256 - same.count();
        let steps = walks(&runs[255][place]).into_iter().map(|(_, steps)| steps);
        let settled = match (steps.max(), least) {
            (None, 0) => Settled::Always,
            (Some(u8::MAX), _) => Settled::NotBy255,
            _ => Settled::From(least as u8),
        };
        let from_own = &under[usize::from(own[place].unwrap_or(0))..];
        let stays = from_own.iter().all(|bytes| bytes == last);
        Some(Alone {
            own: own[place],
            settled,
            own_settles: stays && settled != Settled::NotBy255,
            changes: bytes(&own_replies[place])? != *last,
        })
    };
    (0..own.len()).map(reply).collect()
}

/// Command by command: whether two files are alike outside the operands of code 02, or the first place where they aren't.
pub fn alike(a: &[u8], b: &[u8]) -> Result<(), usize> {
    let [of_a, of_b] = [a, b].map(parts);
    let mut place = 0;
    for (a, b) in of_a.iter().zip(&of_b) {
        if let Some(within) = a.iter().zip(b).position(|(a, b)| a != b) {
            return Err(place + within);
        }
        place += a.len();
    }
    Ok(())
}

/// The bytes of each command, with 0 for the operand of code 02, and of the end.
fn parts(file: &[u8]) -> Vec<Vec<u8>> {
    let part = |command: &Command| {
        let mut bytes = Vec::new();
        command.write(&mut bytes);
        bytes
    };
    let commands = rules::commands(&with_allowance(file, 0)).expect("the file is valid");
    commands.iter().map(part).chain([vec![END]]).collect()
}

fn with_allowance(file: &[u8], allowance: u8) -> Vec<u8> {
    let mut commands = rules::commands(file).expect("the file is valid");
    for command in &mut commands {
        if command.code == ALLOWANCE {
            command.bytes[0] = allowance;
        }
    }
    file_of(&commands)
}

/// For each command the operand of the last code 02 before it.
fn allowances(file: &[u8]) -> Vec<Option<u8>> {
    let commands = rules::commands(file).expect("the file is valid");
    let before = |place: usize| {
        let mut before = commands[..place].iter();
        let last = before.rfind(|command| command.code == ALLOWANCE);
        last.map(|command| command.bytes[0])
    };
    (0..commands.len()).map(before).collect()
}

fn replies(file: &[u8]) -> Vec<Reply> {
    rules::run(file, REPLY_BUFFER).replies
}

/// Nothing where the reference did not come to a slot.
fn bytes(reply: &Reply) -> Option<Vec<u8>> {
    let mut bytes = Vec::new();
    reply.write(&mut bytes);
    (reply.unknown_slots() == 0).then_some(bytes)
}

/// The slots that have a walk, with its steps.
fn walks(reply: &Reply) -> Vec<(usize, u8)> {
    let slots = match &reply.content {
        Content::Slots(slots) => {
            let slots = slots.iter().copied().enumerate();
            slots
                .filter_map(|(place, slot)| Some((place, slot?)))
                .collect()
        }
        Content::Height(slot) => vec![(0, *slot)],
        Content::Zeros | Content::Crossing(_) => vec![],
    };
    let walks = slots.into_iter().filter(|(_, slot)| slot.kind >= 2);
    walks.map(|(slot, walk)| (slot, walk.steps)).collect()
}
