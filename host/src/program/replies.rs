//! What the finder answers to a job file, command by command, read from the bytes of its replies.

use crate::commands::{
    row, Command, ARC, END, EQUATORIAL_CONE, PARALLEL, POLAR_CONE, REPLY_BUFFER, SLOT, TWO_ARCS,
};
use crate::finder;

/// The slots of an arc, in their order.
pub const SLOTS: [&str; 5] = [
    "south cap, first",
    "south cap, second",
    "equator",
    "north cap, first",
    "north cap, second",
];

/// A job file's refusal: its number, 1 to 5, and its place.
#[derive(Clone, Copy, Debug, PartialEq)]
pub struct Refusal {
    pub number: u8,
    pub place: u64,
}

/// A command of an accepted job file, with its reply.
pub struct Replied {
    /// The place of the command in the job file.
    pub place: usize,
    pub command: Command,
    pub reply: Vec<u8>,
}

/// A slot of an arc, or the one answer to another job, which has no name.
pub struct Slot {
    pub name: Option<&'static str>,
    pub kind: u8,
    /// A parallel and two arcs have no walk.
    pub steps: Option<u8>,
    /// Where the kind is 3, or 6 at the equator.
    pub point: Option<Point>,
}

#[derive(Clone, Copy)]
pub enum Point {
    LonLat(f64, f64),
    Height(f64),
}

const FOUND: u8 = 3;
/// Document 02, ask 7: by a second try, after a walk whose height was rejected.
const FOUND_BY_HALVING: u8 = 6;

impl Replied {
    pub fn status(&self) -> u8 {
        self.reply[1]
    }

    /// The slots of a job with status 0; any other reply has none.
    pub fn slots(&self) -> Vec<Slot> {
        let answer = &self.reply[2..];
        match self.command.code {
            _ if self.status() != 0 => Vec::new(),
            ARC => {
                let slots = SLOTS.iter().zip(answer.chunks_exact(SLOT));
                slots.map(|(name, slot)| slot_of_arc(name, slot)).collect()
            }
            EQUATORIAL_CONE | POLAR_CONE => vec![Slot {
                name: None,
                kind: answer[0],
                steps: Some(answer[1]),
                point: (answer[0] == FOUND).then(|| Point::Height(float(&answer[2..]))),
            }],
            PARALLEL | TWO_ARCS => vec![Slot {
                name: None,
                kind: answer[0],
                steps: None,
                point: point(answer[0], &answer[1..]),
            }],
            _ => Vec::new(),
        }
    }
}

fn slot_of_arc(name: &'static str, slot: &[u8]) -> Slot {
    Slot {
        name: Some(name),
        kind: slot[0],
        steps: Some(slot[1]),
        point: point(slot[0], &slot[2..]),
    }
}

fn point(kind: u8, floats: &[u8]) -> Option<Point> {
    let is_found = [FOUND, FOUND_BY_HALVING].contains(&kind);
    is_found.then(|| Point::LonLat(float(floats), float(&floats[8..])))
}

fn float(bytes: &[u8]) -> f64 {
    f64::from_le_bytes(bytes[..8].try_into().expect("a float has eight bytes"))
}

/// The replies to a job file, or its refusal.
pub fn answer(job: &[u8]) -> Result<Vec<Replied>, Refusal> {
    let mut buffer = vec![0; REPLY_BUFFER];
    let answer = finder::run(job, &mut buffer);
    match answer.number {
        0 => Ok(replied(job, &buffer[..answer.written as usize])),
        number => Err(Refusal {
            number,
            place: answer.place,
        }),
    }
}

/// The commands of an accepted file, each with its part of the replies.
fn replied(job: &[u8], mut replies: &[u8]) -> Vec<Replied> {
    let mut all = Vec::new();
    for (place, command) in commands(job) {
        let (reply, rest) = replies.split_at(command.row().reply);
        all.push(Replied {
            place,
            command,
            reply: reply.to_vec(),
        });
        replies = rest;
    }
    all
}

/// The commands of an accepted file before code 00, with their places.
pub fn commands(job: &[u8]) -> Vec<(usize, Command)> {
    let mut commands = Vec::new();
    let mut place = 0;
    while job[place] != END {
        let row = row(job[place]).expect("the file is accepted");
        let after = place + 1 + row.operands();
        let command = Command::read(job[place], row, &job[place + 1..after]);
        commands.push((place, command));
        place = after;
    }
    commands
}
