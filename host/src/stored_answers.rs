//! The stored answers: job files with what document 01's rules and the reference give for them, chosen to bring about each outcome.

use crate::angles;
use crate::commands::{Command, Float, ALLOWANCE, ARC, END, PARALLEL, REPLY_BUFFER};
use crate::crossings::Crossings;
use crate::inputs::{self, two_arcs, Input, NOT_FINITE};
use crate::job_files::{self, Maker};
use crate::limits::Limits;
use crate::outcomes::Outcomes;
use crate::quarters::Quarters;
use crate::random::{moved, Random};
use crate::reference;
use crate::rules::{self, Reply, Settings};
use crate::second_tries::SecondTries;
use crate::signs::Signs;
use crate::turns::Turns;
use std::f64::consts::PI;
use std::fmt;

const SEED: u64 = 0x5374_6F72;
const FILES: usize = 2_200;
/// At least so many of each kind in each slot, of whole turns in either longitude function, of longitudes −0, of each length that decides on a rule, of
/// each side of both limits, of each event of second tries and of two arcs, of each place in each quarter of a cap and of each height about the
/// transition, of each answer of signs by order, each reason for none and each limit there, and at most so many jobs tried for them.
const OF_A_KIND: u64 = 4;
/// So many of each class of two arcs.
const OF_TWO_ARCS: usize = 6;
const MOST_TRIED: usize = 2_000_000;
/// The file starts with a text of this length.
const TEXT_LENGTH: usize = 512;
const TEXT: &str = "Stored answers of the special point finder, made by `cargo run --release --offline --manifest-path host/Cargo.toml \
--bin make_stored_answers` from the rules of documents 01 and 02 (host/src/rules.rs) and the reference, cds-astro/cds-healpix-rust 4e5e5bc0f3 \
with document 01's angle functions and document 02's changes. After these 512 bytes come records, little-endian: length of the job file, length \
of the reply buffer, number, place, bytes written (u32 each); the job file; the bytes written.";

pub struct Stored {
    pub bytes: Vec<u8>,
    files: usize,
    outcomes: Outcomes,
    turns: Turns,
    limits: Limits,
    second_tries: SecondTries,
    quarters: Quarters,
    signs: Signs,
    crossings: Crossings,
    maker: Maker,
}

/// Makes the stored answers, or says what is missing in them.
pub fn make() -> Result<Stored, String> {
    reference::silence_watched_panics();
    let mut stored = Stored {
        bytes: format!("{TEXT:<width$}\n", width = TEXT_LENGTH - 1).into_bytes(),
        files: 0,
        outcomes: Outcomes::default(),
        turns: Turns::default(),
        limits: Limits::default(),
        second_tries: SecondTries::default(),
        quarters: Quarters::default(),
        signs: Signs::default(),
        crossings: Crossings::default(),
        maker: Maker::new(SEED),
    };
    stored.add_examples();
    stored.add_lengths();
    stored.add_damaged();
    stored.add_operands();
    stored.add_refusals();
    stored.add_allowances();
    stored.add_kinds();
    stored.add_until(
        inputs::beside_longitude_0,
        |it| it.turns.least(),
        |it, reply| it.turns.least_of(reply),
    );
    stored.add_until(
        inputs::short_arc,
        |it| it.limits.least(),
        |it, reply| it.limits.least_of(reply),
    );
    stored.add_until(
        inputs::tried_again,
        |it| it.second_tries.least(),
        |it, reply| it.second_tries.least_of(reply),
    );
    stored.add_until(
        inputs::on_borders,
        |it| it.quarters.least(),
        |it, reply| it.quarters.least_of(reply),
    );
    stored.add_until(
        inputs::about_signs,
        |it| it.signs.least(),
        |it, reply| it.signs.least_of(reply),
    );
    stored.add_two_arcs();
    stored.add_until(
        two_arcs::any,
        |it| it.crossings.least(),
        |it, reply| it.crossings.least_of(reply),
    );
    stored.add_mixed();
    let mut missing = [
        stored.outcomes.missing(),
        stored.limits.missing(),
        stored.second_tries.missing(),
        stored.quarters.missing(),
        stored.signs.missing(),
        stored.crossings.missing(),
    ]
    .concat();
    if stored.turns.least() == 0 {
        missing.push("longitudes of a whole turn and of −0".to_string());
    }
    if missing.is_empty() {
        Ok(stored)
    } else {
        Err(format!("not seen: {}", missing.join("; ")))
    }
}

impl fmt::Display for Stored {
    fn fmt(&self, f: &mut fmt::Formatter) -> fmt::Result {
        let (files, bytes) = (self.files, self.bytes.len());
        write!(f, "{files} job files, {bytes} bytes")
    }
}

impl Stored {
    /// Adds a job file, unless something of its answer is not known.
    fn add(&mut self, job: &[u8], buffer: usize) {
        let answer = rules::run(job, buffer);
        if answer.replies.iter().any(|reply| reply.unknown_slots() > 0) {
            return;
        }
        let mut replies = Vec::new();
        self.outcomes.count_file(answer.number);
        for reply in &answer.replies {
            let at = replies.len();
            reply.write(&mut replies);
            self.outcomes.count(&replies[at..]);
            self.turns.count(reply);
            self.limits.count(reply);
            self.second_tries.count(reply);
            self.quarters.count(reply);
            self.signs.count(reply);
            self.crossings.count(reply);
        }
        let number = usize::from(answer.number);
        for number in [job.len(), buffer, number, answer.place, replies.len()] {
            let number = u32::try_from(number).expect("a record's numbers are small");
            self.bytes.extend(number.to_le_bytes());
        }
        self.bytes.extend(job);
        self.bytes.extend(replies);
        self.files += 1;
    }

    /// Adds the file of these commands with a buffer that they fill.
    fn add_commands(&mut self, commands: &[Command]) {
        self.add(&job_files::file_of(commands), rules::needed(commands));
    }

    /// Those of document 01 that are not starred.
    fn add_examples(&mut self) {
        for job in [&[ALLOWANCE, 0x14, END][..], &[0xF0], &[END]] {
            self.add(job, REPLY_BUFFER);
        }
        let lats = [0.4, -0.3, 0.9];
        for lat in lats {
            let (z, _) = angles::sin_cos(lat);
            for ends in [[1.0, lat, 2.0, 0.5], [1.0, -0.5, 2.0, lat]] {
                let [lon1, lat1, lon2, lat2] = ends;
                self.add_commands(&[Command::new(PARALLEL, [lon1, lat1, lon2, lat2, z], [])]);
            }
        }
        self.add_job(1e-9, 20, Command::new(ARC, [0.0, 0.8, PI, -0.8], []));
        for lat in lats {
            self.add_job(1e-9, 20, Command::new(ARC, [1.0, lat, 1.0, lat], []));
        }
    }

    fn add_job(&mut self, precision: f64, allowance: u8, job: Command) {
        let (precision, allowance) = (Command::precision(precision), Command::allowance(allowance));
        self.add_commands(&[precision, allowance, job]);
    }

    /// Files of the shortest and the longest lengths, and buffers that are too short, exactly full and longer.
    fn add_lengths(&mut self) {
        self.add(&[], REPLY_BUFFER);
        self.add(&[], 0);
        self.add(&[END], 0);
        for length in [16_383, 16_384, 16_385] {
            let [valid, without_end, ..] = job_files::of_length(length);
            self.add(&valid, REPLY_BUFFER);
            self.add(&without_end, REPLY_BUFFER);
        }
        let file = job_files::every_code();
        let commands = rules::commands(&file).expect("the file is valid");
        for count in 1..=commands.len() {
            let file = job_files::file_of(&commands[..count]);
            let needed = rules::needed(&commands[..count]);
            for buffer in [0, needed - 1, needed, needed + 1, REPLY_BUFFER] {
                self.add(&file, buffer);
            }
        }
    }

    /// A file with every code, cut at each length, with bytes after it, and with other codes.
    fn add_damaged(&mut self) {
        let file = job_files::every_code();
        for length in 1..file.len() {
            self.add(&file[..length], REPLY_BUFFER);
        }
        for count in [1, 2, 40] {
            let longer = [&file[..], &vec![END; count]].concat();
            self.add(&longer, REPLY_BUFFER);
        }
        for place in job_files::places(&file) {
            for code in [0x00, 0x02, 0x07, 0x08, 0x10, 0x7F, 0x80, 0x83, 0xF0, 0xFF] {
                let mut changed = file.clone();
                changed[place] = code;
                self.add(&changed, REPLY_BUFFER);
            }
        }
    }

    /// Each float at its range's ends, next to them, and not finite; each byte of any value.
    fn add_operands(&mut self) {
        for job in job_files::jobs() {
            let row = job.row();
            for (place, float) in row.floats.iter().enumerate() {
                for value in values(*float) {
                    let mut changed = job;
                    changed.floats[place] = value;
                    self.add_job(1e-9, 20, changed);
                }
            }
            for place in 0..row.bytes {
                for value in [0, 1, 2, 3, 127, 128, 254, 255] {
                    let mut changed = job;
                    changed.bytes[place] = value;
                    self.add_job(1e-9, 20, changed);
                }
            }
        }
        let (precision, allowance) = (Command::precision(1e-9), Command::allowance(20));
        let [arc, cone, ..] = job_files::jobs();
        for value in values(Float::Precision) {
            self.add_commands(&[precision, allowance, Command::precision(value), arc, cone]);
        }
    }

    /// Jobs with no reason to be refused, one or several, after some or all of the settings.
    fn add_refusals(&mut self) {
        let (precision, allowance) = (Command::precision(1e-9), Command::allowance(20));
        let refused = Command::precision(f64::NAN);
        let starts: [&[Command]; 7] = [
            &[],
            &[precision],
            &[allowance],
            &[refused, allowance],
            &[precision, allowance],
            &[allowance, precision, refused],
            &[precision, precision, allowance, allowance],
        ];
        for job in job_files::jobs() {
            let bytes = job.row().bytes;
            for start in starts {
                for reasons in 0..8 {
                    let mut changed = job;
                    if reasons & 1 != 0 {
                        changed.floats[1] = 7.0;
                    }
                    if reasons & 2 != 0 && bytes > 0 {
                        changed.bytes[bytes - 1] = 2;
                    }
                    if reasons & 4 != 0 {
                        changed.floats[0] = f64::NEG_INFINITY;
                    }
                    self.add_commands(&[start, &[changed, job]].concat());
                }
            }
        }
    }

    /// Walks under several allowances, one file for each and one for all.
    fn add_allowances(&mut self) {
        let allowances = [0, 1, 2, 3, 4, 5, 6, 10, 20, 254, 255];
        for job in job_files::jobs() {
            let mut all = vec![Command::precision(0.0)];
            for allowance in allowances {
                self.add_job(0.0, allowance, job);
                all.extend([Command::allowance(allowance), job]);
            }
            self.add_commands(&all);
        }
    }

    /// Jobs of all classes, of which those are kept that bring a kind of which there are too few.
    fn add_kinds(&mut self) {
        for _ in 0..MOST_TRIED {
            if self.outcomes.least_of_a_kind() >= OF_A_KIND {
                return;
            }
            let Input {
                job,
                precision,
                allowance,
            } = self.maker.input();
            let mut bytes = Vec::new();
            rules::reply(&job, &Settings::new(precision, allowance)).write(&mut bytes);
            if self.outcomes.least_of(&bytes) < OF_A_KIND {
                self.add_job(precision, allowance, job);
            }
        }
    }

    /// Two arcs of each class, which need no settings; a refused pair leaves those that are there.
    fn add_two_arcs(&mut self) {
        let (precision, allowance) = (Command::precision(1e-9), Command::allowance(20));
        let [arc, ..] = job_files::jobs();
        for ((_, draw), _) in two_arcs::CLASSES {
            let pairs = [(); OF_TWO_ARCS].map(|()| draw(&mut self.maker.random));
            for pair in pairs {
                self.add_commands(&[pair]);
            }
            self.add_commands(&[&[precision, allowance][..], &pairs, &[arc]].concat());
        }
    }

    /// Jobs of which those are kept that add to what there is least of, until there is enough of it.
    fn add_until(
        &mut self,
        draw: fn(&mut Random) -> Command,
        least: fn(&Self) -> u64,
        least_of: fn(&Self, &Reply) -> u64,
    ) {
        let (precision, allowance) = (1e-9, 20);
        for _ in 0..MOST_TRIED {
            if least(self) >= OF_A_KIND {
                return;
            }
            let job = draw(&mut self.maker.random);
            let reply = rules::reply(&job, &Settings::new(precision, allowance));
            if least_of(self, &reply) < OF_A_KIND {
                self.add_job(precision, allowance, job);
            }
        }
    }

    /// Files of some jobs of all classes, and damaged ones, with buffers of several lengths.
    fn add_mixed(&mut self) {
        while self.files < FILES {
            let most = self.maker.random.one_of(&[180, 250, 340]);
            let file = self.maker.mixed(most);
            if self.maker.random.below(4) == 0 {
                let damaged = self.maker.damaged(&file);
                self.add(&damaged, REPLY_BUFFER);
                continue;
            }
            let commands = rules::commands(&file.bytes).expect("the file is valid");
            let needed = rules::needed(&commands);
            let more = self.maker.random.one_of(&[0, 0, 0, 1, 100]);
            self.add(&file.bytes, needed + more);
        }
    }
}

/// The ends of its range, the floats next to them, and those that are never in range or are the other zero.
fn values(float: Float) -> Vec<f64> {
    let ends = float.ends().into_iter();
    let about = ends.flat_map(|end| [-1, 0, 1].map(|places| moved(end, places)));
    about.chain([-0.0]).chain(NOT_FINITE).collect()
}
