//! Document 01's "Jobs and replies" and "Refusals": what a job file gets. What follows code and status comes from the reference, for two arcs
//! from document 02's rule.

mod arc;
mod others;
mod reply;

pub use arc::lower_first;
pub use reply::{Content, Reply};

use crate::commands::{
    row, Command, ALLOWANCE, ARC, END, EQUATORIAL_CONE, MOST_BYTES, PARALLEL, POLAR_CONE,
    PRECISION, TWO_ARCS,
};
use crate::reference;

/// What the commands before have set.
#[derive(Clone, Copy, Debug, Default)]
pub struct Settings {
    pub precision: Option<f64>,
    pub allowance: Option<u8>,
}

impl Settings {
    pub fn new(precision: f64, allowance: u8) -> Self {
        Settings {
            precision: Some(precision),
            allowance: Some(allowance),
        }
    }

    /// Precision and allowance, where both are set.
    fn both(&self) -> Option<(f64, u8)> {
        self.precision.zip(self.allowance)
    }
}

/// What a job file gets; one that is refused gets no replies.
pub struct Answer {
    pub number: u8,
    pub place: usize,
    pub replies: Vec<Reply>,
}

impl Answer {
    pub fn written(&self) -> usize {
        self.replies.iter().map(Reply::width).sum()
    }
}

/// A refusal's number and place.
type Refusal = (u8, usize);

pub fn run(job: &[u8], buffer: usize) -> Answer {
    let fits = |commands: Vec<Command>| match needed(&commands) {
        needed if buffer < needed => Err((5, needed)),
        _ => Ok(commands),
    };
    match commands(job).and_then(fits) {
        Ok(commands) => Answer {
            number: 0,
            place: job.len(),
            replies: replies(&commands),
        },
        Err((number, place)) => Answer {
            number,
            place,
            replies: Vec::new(),
        },
    }
}

/// The length of the replies to these commands.
pub fn needed(commands: &[Command]) -> usize {
    commands.iter().map(|command| command.row().reply).sum()
}

/// The commands before code 00, or the first of the refusals 1 to 4.
pub fn commands(job: &[u8]) -> Result<Vec<Command>, Refusal> {
    if job.is_empty() || job.len() > MOST_BYTES {
        return Err((1, 0));
    }
    let mut commands = Vec::new();
    let mut at = 0;
    while let Some(&code) = job.get(at) {
        let row = row(code).ok_or((2, at))?;
        let after = at + 1 + row.operands();
        let operands = job.get(at + 1..after).ok_or((3, at))?;
        if code == END {
            let ends = after == job.len();
            return if ends { Ok(commands) } else { Err((4, after)) };
        }
        commands.push(Command::read(code, row, operands));
        at = after;
    }
    Err((3, job.len()))
}

fn replies(commands: &[Command]) -> Vec<Reply> {
    let mut settings = Settings::default();
    let reply_to = |command: &Command| {
        let reply = reply(command, &settings);
        if reply.status == 0 {
            settings = changed(settings, command);
        }
        reply
    };
    commands.iter().map(reply_to).collect()
}

/// The settings after an accepted command.
fn changed(settings: Settings, command: &Command) -> Settings {
    match command.code {
        PRECISION => Settings {
            precision: Some(command.floats[0]),
            ..settings
        },
        ALLOWANCE => Settings {
            allowance: Some(command.bytes[0]),
            ..settings
        },
        _ => settings,
    }
}

/// The reply to one command.
pub fn reply(command: &Command, settings: &Settings) -> Reply {
    match refusal(command, settings) {
        0 => answer(command, settings),
        status => Reply::with_status(*command, status),
    }
}

/// The first of the refusals 6 to 9, or 0.
fn refusal(command: &Command, settings: &Settings) -> u8 {
    let Command { code, bytes, .. } = *command;
    if settings.both().is_none() && matches!(code, ARC | EQUATORIAL_CONE | POLAR_CONE) {
        6
    } else if command.operands().any(|(_, x)| !x.is_finite()) {
        7
    } else if code != ALLOWANCE && bytes.iter().any(|byte| *byte > 1) {
        8
    } else if command.operands().any(|(float, x)| !float.in_range(x)) {
        9
    } else {
        0
    }
}

/// The reply to a command that none of the refusals 6 to 9 holds for.
fn answer(command: &Command, settings: &Settings) -> Reply {
    match (command.code, settings.both()) {
        (ARC, Some(walk)) => arc::reply(command, walk),
        (EQUATORIAL_CONE, Some(walk)) => others::equatorial_cone(command, walk),
        (POLAR_CONE, Some(walk)) => others::polar_cone(command, walk),
        (PARALLEL, _) => others::parallel(command),
        (TWO_ARCS, _) => others::two_arcs(command),
        _ => Reply::with_status(*command, 0),
    }
}

/// The finite sizes of all steps that the reference makes for this job.
pub fn step_sizes(job: &Command, settings: &Settings) -> Vec<f64> {
    reply(job, settings);
    let sizes = reference::step_sizes().into_iter();
    sizes
        .map(f64::abs)
        .filter(|size| size.is_finite())
        .collect()
}
