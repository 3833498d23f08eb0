//! Random job files: jobs of all classes with changes of the settings between them, and damaged files.

use crate::commands::{
    Command, ARC, END, EQUATORIAL_CONE, MOST_BYTES, PARALLEL, POLAR_CONE, TWO_ARCS,
};
use crate::inputs::{self, Input, Inputs, NOT_FINITE};
use crate::program::replies;
use crate::random::Random;

/// Room for a job with the settings before it, for 00 and for what pads a file.
const ROOM: usize = 104;

#[derive(Default)]
pub struct JobFile {
    pub bytes: Vec<u8>,
    /// The class of each job.
    pub classes: Vec<usize>,
}

impl JobFile {
    fn write(&mut self, commands: &[Command]) {
        for command in commands {
            command.write(&mut self.bytes);
        }
    }
}

pub struct Maker {
    pub random: Random,
    classes: Vec<Inputs>,
    /// The class of the next job.
    next: usize,
}

impl Maker {
    pub fn new(seed: u64) -> Self {
        Maker {
            random: Random::new(seed),
            classes: inputs::classes(),
            next: 0,
        }
    }

    /// The names of the classes; after them comes the class of the jobs that stand before the settings.
    pub fn names(&self) -> Vec<String> {
        let names = self.classes.iter().map(|class| class.name.clone());
        let before = "any job, before the settings".to_string();
        names.chain([before]).collect()
    }

    /// A valid file of at most so many bytes, with a job of one class after the other.
    pub fn mixed(&mut self, most: usize) -> JobFile {
        let mut file = JobFile::default();
        if self.random.below(4) == 0 {
            self.write_before_settings(&mut file);
        }
        while file.bytes.len() + ROOM < most {
            file.classes.push(self.next);
            let input = self.input();
            file.write(&self.settings(input.precision, input.allowance));
            file.write(&[input.job]);
        }
        file.bytes.push(END);
        file
    }

    /// An input of one class after the other.
    pub fn input(&mut self) -> Input {
        let class = self.next;
        self.next = (class + 1) % self.classes.len();
        (self.classes[class].draw)(&mut self.random)
    }

    /// Commands that set these, most of the time.
    fn settings(&mut self, precision: f64, allowance: u8) -> Vec<Command> {
        let random = &mut self.random;
        let (set, allow) = (Command::precision, Command::allowance);
        let refused = set(random.one_of(&NOT_FINITE));
        let (precision, allowance) = (set(precision), allow(allowance));
        match random.below(16) {
            0 => vec![],
            1 => vec![precision],
            2 => vec![allowance],
            3 => vec![allowance, precision],
            4 => vec![precision, allowance, refused],
            5 => {
                let earlier = [
                    set(inputs::precision(random)),
                    allow(inputs::allowance(random)),
                ];
                vec![earlier[0], precision, earlier[1], allowance]
            }
            _ => vec![precision, allowance],
        }
    }

    /// Jobs before a precision, an allowance or both are accepted.
    fn write_before_settings(&mut self, file: &mut JobFile) {
        let precision = Command::precision(inputs::precision(&mut self.random));
        let allowance = Command::allowance(inputs::allowance(&mut self.random));
        let refused = Command::precision(self.random.one_of(&NOT_FINITE));
        let starts: [&[Command]; 4] = [&[], &[precision], &[allowance], &[refused, allowance]];
        file.write(self.random.one_of(&starts));
        for _ in 0..=self.random.below(3) {
            file.write(&[inputs::any(&mut self.random)]);
            file.classes.push(self.classes.len());
        }
    }

    /// Any bytes, as a file of its own or in a valid file.
    pub fn damaged(&mut self, file: &JobFile) -> Vec<u8> {
        let mut bytes = file.bytes.clone();
        let random = &mut self.random;
        let place = random.below(bytes.len() as u64) as usize;
        let places = places(&bytes);
        let command = random.one_of(&places);
        let tail = 1 + random.below(40);
        match random.below(9) {
            0 => bytes.truncate(place),
            1 => bytes[place] ^= 1 << random.below(8),
            2 => bytes[place] = random.below(256) as u8,
            3 => bytes[command] = random.below(256) as u8,
            4 => bytes[command] = END,
            5 => bytes.truncate(command),
            6 => bytes.truncate(bytes.len() - 1),
            7 => bytes.extend((0..tail).map(|_| random.below(256) as u8)),
            _ => {
                let length = random.below(60);
                bytes = (0..length).map(|_| random.below(9) as u8).collect();
            }
        }
        bytes
    }
}

/// The places of the commands of a valid file, with that of code 00.
pub fn places(job: &[u8]) -> Vec<usize> {
    let commands = replies::commands(job).into_iter();
    let places = commands.map(|(place, _)| place);
    places.chain([job.len() - 1]).collect()
}

/// An arc from the equator into the north cap, both cones, a parallel and two arcs, each with a point.
pub fn jobs() -> [Command; 5] {
    [
        Command::new(ARC, [4.06, 0.59, 4.33, 0.83], []),
        Command::new(EQUATORIAL_CONE, [0.276, 0.199, 0.1], [1]),
        Command::new(POLAR_CONE, [0.887, 0.7, 0.841, 0.1], [1, 1]),
        Command::new(PARALLEL, [4.06, 0.59, 4.33, 0.83, 0.7], []),
        Command::new(
            TWO_ARCS,
            [4.06, 0.59, 4.33, 0.83, 4.31, 0.61, 4.05, 0.79],
            [],
        ),
    ]
}

/// A valid file of these commands.
pub fn file_of(commands: &[Command]) -> Vec<u8> {
    let mut file = JobFile::default();
    file.write(commands);
    file.bytes.push(END);
    file.bytes
}

/// A file with every code.
pub fn every_code() -> Vec<u8> {
    let settings = [Command::precision(1e-9), Command::allowance(20)];
    file_of(&[&settings[..], &jobs()].concat())
}

/// A valid file with commands after its own, up to this length.
pub fn padded(file: &[u8], length: usize) -> Vec<u8> {
    let mut padded = JobFile {
        bytes: file[..file.len() - 1].to_vec(),
        ..JobFile::default()
    };
    // A precision takes nine bytes; two for each allowance must be left.
    let rest = length - file.len();
    let precisions = rest / 9 - (rest / 9 + rest) % 2;
    padded.write(&vec![Command::precision(1e-6); precisions]);
    padded.write(&vec![Command::allowance(30); (rest - 9 * precisions) / 2]);
    padded.bytes.push(END);
    padded.bytes
}

/// Files of this length, just within the limit or past it: a valid one, one without 00, one with a byte after 00, one with an unknown
/// code, and one of a single byte throughout.
pub fn of_length(length: usize) -> [Vec<u8>; 5] {
    let valid = padded(&every_code(), length);
    let mut without_end = padded(&every_code(), length + 1);
    without_end.truncate(length);
    let mut after_end = padded(&every_code(), length - 1);
    after_end.push(END);
    let mut unknown = valid.clone();
    unknown[length - 1] = 0x08;
    [valid, without_end, after_end, unknown, vec![END; length]]
}

/// The lengths about the limit, and some that are those of short files in their lowest 16 bits.
pub fn lengths() -> impl Iterator<Item = usize> {
    let about_limit = MOST_BYTES - 40..=MOST_BYTES + 40;
    about_limit.chain([0x1_0000, 0x1_0001, LONGEST])
}

/// The longest of them.
pub const LONGEST: usize = 0x1_0200;
