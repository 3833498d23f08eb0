//! The finder against document 01's rules and the reference, job file by job file; two arcs against document 02's rule and plain geometry.

pub mod depends;
mod geometry;
mod guarded;
mod stack;

use crate::commands::{ALLOWANCE, PRECISION, REPLY_BUFFER};
use crate::crossings::Crossings;
use crate::finder;
use crate::inputs::{self, two_arcs, ARCS, BESIDE_LONGITUDE_0, TWO_ARCS};
use crate::job_files::{self, Maker};
use crate::limits::Limits;
use crate::outcomes::{print_row, Outcomes};
use crate::quarters::Quarters;
use crate::reference::{self, Panic, Slot};
use crate::rules::{self, Answer, Content, Reply};
use crate::second_tries::SecondTries;
use crate::signs::{self, Signs};
use crate::turns::Turns;
use depends::Depends;
use geometry::Geometry;
use guarded::{Guarded, Side};
use stack::Stack;
use std::collections::HashMap;

const SEED: u64 = 0x4A6F_6273;
const MOST_SHOWN: u64 = 10;
/// From so many random jobs on, everything that the classes are made for must come about.
const LONG_RUN: u64 = 200_000;

#[derive(Clone, Default)]
struct Tally {
    compared: u64,
    differ: u64,
    found: u64,
    unreachable: u64,
    unwraps: u64,
    /// Longitudes that came to 2π.
    turns: u64,
    crossings: Crossings,
    signs: Signs,
}

impl Tally {
    fn count(&mut self, reply: &Reply, agrees: bool) {
        self.compared += 1;
        self.differ += u64::from(!agrees);
        self.found += u64::from(has_point(&reply.content));
        self.unreachable += u64::from(reply.panic == Some(Panic::Unreachable));
        self.unwraps += u64::from(reply.panic == Some(Panic::UnwrapOfNone));
        let turns = reply.whole_turns.iter().flatten();
        self.turns += turns.map(|count| u64::from(*count)).sum::<u64>();
        self.crossings.count(reply);
        self.signs.count(reply);
    }

    fn print(&self, name: &str) {
        let [nothing, same, not] = self.signs.answers();
        let numbers = [
            self.compared,
            self.differ,
            self.found,
            self.unreachable,
            self.unwraps,
            self.turns,
            nothing,
            same,
            not,
        ];
        print_row(name, numbers);
    }
}

fn has_point(content: &Content) -> bool {
    match content {
        Content::Zeros => false,
        Content::Slots(slots) => slots.iter().flatten().any(Slot::has_point),
        Content::Height(slot) | Content::Crossing(slot) => slot.has_point(),
    }
}

struct Comparison {
    maker: Maker,
    job: Guarded,
    reply: Guarded,
    stack: Stack,
    /// By class, and at the end for files that are no valid file of the maker's.
    tallies: Vec<Tally>,
    total: Tally,
    outcomes: Outcomes,
    turns: Turns,
    limits: Limits,
    second_tries: SecondTries,
    quarters: Quarters,
    geometry: Geometry,
    /// Slots that the reference did not come to.
    unknown_slots: u64,
    files: u64,
    files_differ: u64,
    shown: u64,
    depends: Depends,
}

impl Comparison {
    fn new() -> Self {
        let maker = Maker::new(SEED);
        let tallies = vec![Tally::default(); maker.names().len() + 1];
        Comparison {
            maker,
            job: Guarded::new(job_files::LONGEST),
            reply: Guarded::new(REPLY_BUFFER),
            stack: Stack::new(),
            tallies,
            total: Tally::default(),
            outcomes: Outcomes::default(),
            turns: Turns::default(),
            limits: Limits::default(),
            second_tries: SecondTries::default(),
            quarters: Quarters::default(),
            geometry: Geometry::default(),
            unknown_slots: 0,
            files: 0,
            files_differ: 0,
            shown: 0,
            depends: Depends::new(),
        }
    }

    /// Runs a job file through the finder, and says whether number, place, written and all bytes that it may not change are as they must be.
    fn run(&mut self, job: &[u8], buffer: usize, expected: &Answer) -> Result<(), String> {
        let random = &mut self.maker.random;
        let side = random.one_of(&[Side::First, Side::Second]);
        self.job.fill(job.len(), side, random);
        self.job.buffer().copy_from_slice(job);
        self.reply.fill(buffer, side, random);
        let answer = self.stack.run(&mut self.job, &mut self.reply);
        let written = expected.written();
        let agreed = finder::Answer {
            number: expected.number,
            place: expected.place as u64,
            written: written as u64,
        };
        if answer != agreed {
            Err(format!("{answer:?}, not {agreed:?}"))
        } else if self.job.buffer() != job || !self.job.is_kept_from(job.len()) {
            Err("the job or bytes beside it have changed".to_string())
        } else if !self.reply.is_kept_from(written) {
            Err("bytes past the replies or beside the buffer have changed".to_string())
        } else {
            Ok(())
        }
    }

    /// Compares a job file. Without classes, its jobs are counted at the end.
    fn compare(&mut self, job: &[u8], classes: Option<&[usize]>, buffer: usize) {
        let expected = rules::run(job, buffer);
        let result = self.run(job, buffer, &expected);
        self.files += 1;
        self.outcomes.count_file(expected.number);
        let mut differs = result.is_err();
        if let Err(difference) = result {
            self.show(job, buffer, &difference);
        }
        let mut classes = classes.into_iter().flatten();
        let mut at = 0;
        for reply in &expected.replies {
            let bytes = self.reply.buffer()[at..at + reply.width()].to_vec();
            let difference = difference(reply, &bytes)
                .or_else(|| self.geometry.check(&reply.command, &bytes))
                .or_else(|| signs::contradiction(reply));
            let agrees = difference.is_none();
            if !matches!(reply.command.code, PRECISION | ALLOWANCE) {
                let class = classes.next().copied();
                let class = class.unwrap_or(self.tallies.len() - 1);
                self.tallies[class].count(reply, agrees);
                self.total.count(reply, agrees);
            }
            self.unknown_slots += reply.unknown_slots() as u64;
            self.turns.count(reply);
            self.limits.count(reply);
            self.second_tries.count(reply);
            self.quarters.count(reply);
            if let Some(difference) = difference {
                differs = true;
                self.show(job, buffer, &format!("{}: {difference}", reply.command));
            } else {
                self.outcomes.count(&bytes);
            }
            at += reply.width();
        }
        self.files_differ += u64::from(differs);
    }

    fn show(&mut self, job: &[u8], buffer: usize, difference: &str) {
        self.shown += 1;
        if self.shown <= MOST_SHOWN {
            let hex: String = job.iter().map(|byte| format!("{byte:02x}")).collect();
            println!("job file {hex}, buffer {buffer}: {difference}");
        }
    }

    /// Files of one byte; a file with every code, cut at each length, with each byte changed to each value, and with each buffer up to its
    /// replies' length; files of each length about the limit, and far past it.
    fn systematic(&mut self) {
        for byte in 0..=u8::MAX {
            self.compare(&[byte], None, 0);
        }
        let file = job_files::every_code();
        for length in 0..file.len() {
            self.compare(&file[..length], None, REPLY_BUFFER);
        }
        for place in 0..file.len() {
            for value in 0..=u8::MAX {
                let mut changed = file.clone();
                changed[place] = value;
                self.compare(&changed, None, REPLY_BUFFER);
            }
        }
        for buffer in 0..=needed(&file) + 1 {
            self.compare(&file, None, buffer);
        }
        for length in job_files::lengths() {
            for file in job_files::of_length(length) {
                self.compare(&file, None, REPLY_BUFFER);
            }
        }
    }

    /// A valid file with a buffer that is long enough and one that isn't; then damaged ones.
    fn mixed(&mut self) {
        let most = self.maker.random.one_of(&[300, 3_000, 16_384]);
        let mut file = self.maker.mixed(most);
        if self.maker.random.flip() {
            file.bytes = job_files::padded(&file.bytes, most);
        }
        let needed = needed(&file.bytes);
        let random = &mut self.maker.random;
        let longer = match random.below(4) {
            0 => needed + random.below(100) as usize,
            1 => REPLY_BUFFER,
            _ => needed,
        };
        let shorter = match random.below(4) {
            0 => 0,
            1 => random.below(needed as u64) as usize,
            _ => needed - 1,
        };
        self.compare(&file.bytes, Some(&file.classes), longer);
        self.compare(&file.bytes, Some(&file.classes), shorter);
        self.damaged();
    }

    fn damaged(&mut self) {
        let file = self.maker.mixed(300);
        for _ in 0..4 {
            let damaged = self.maker.damaged(&file);
            self.compare(&damaged, None, REPLY_BUFFER);
        }
    }

    fn print(&self) {
        print_row(
            "",
            [
                "compared",
                "differ",
                "found",
                "unreachable",
                "unwraps",
                "turns",
                "told 0",
                "told 1",
                "told 2",
            ],
        );
        let damaged = "any job, in damaged files".to_string();
        let names = self.maker.names().into_iter().chain([damaged]);
        for (name, tally) in names.zip(&self.tallies) {
            tally.print(&name);
        }
        self.total.print("all");
        self.outcomes.print();
        self.turns.print();
        self.limits.print();
        self.second_tries.print();
        self.quarters.print();
        self.total.signs.print();
        self.total.crossings.print();
        self.geometry.print();
        print_row(
            "slots that the reference did not come to",
            [self.unknown_slots],
        );
        self.depends.print();
    }

    /// Whether all is well after a run on so many random jobs.
    fn verdict(&self, count: u64) -> bool {
        let Tally {
            compared, differ, ..
        } = self.total;
        println!(
            "job files: {} compared, {} differ",
            self.files, self.files_differ
        );
        println!("jobs: {compared} compared, {differ} differ");
        let missing = match count {
            ..LONG_RUN => Vec::new(),
            _ => self.missing(),
        };
        for outcome in &missing {
            println!("jobs: FAILED, not seen: {outcome}");
        }
        let (agree, suffices) = (self.depends.verdict(), self.stack_suffices());
        self.files_differ == 0 && agree && missing.is_empty() && suffices
    }

    /// What is due and was never seen.
    fn missing(&self) -> Vec<String> {
        let turns = [self.turns.missing(), self.classes_without_turns()].concat();
        let crossings = [
            self.total.crossings.missing(),
            self.classes_without_events(),
            self.geometry.missing(),
        ];
        let others = [
            self.outcomes.missing(),
            turns,
            self.limits.missing(),
            self.second_tries.missing(),
            self.quarters.missing(),
            self.total.signs.missing(),
            self.classes_without_answers(),
            self.depends.missing(),
        ];
        [others.concat(), crossings.concat()].concat()
    }

    /// The classes of two arcs that never came to what they are made for.
    fn classes_without_events(&self) -> Vec<String> {
        let tallies: HashMap<_, _> = self.maker.names().into_iter().zip(&self.tallies).collect();
        let classes = two_arcs::CLASSES.iter();
        let missing = classes.flat_map(|((name, _), due)| {
            let name = format!("{TWO_ARCS}, {name}");
            tallies[&name].crossings.missing_of(&name, due)
        });
        missing.collect()
    }

    /// The classes about the limits of signs by order that never got one of its answers.
    fn classes_without_answers(&self) -> Vec<String> {
        let tallies: HashMap<_, _> = self.maker.names().into_iter().zip(&self.tallies).collect();
        let missing = inputs::signs::CLASSES.iter().flat_map(|(name, _)| {
            let name = format!("{ARCS}, {name}");
            tallies[&name].signs.missing_of(&name)
        });
        missing.collect()
    }

    /// The classes that are made for longitudes of a whole turn and had none.
    fn classes_without_turns(&self) -> Vec<String> {
        let classes = self.maker.names().into_iter().zip(&self.tallies);
        let without =
            classes.filter(|(name, tally)| name.ends_with(BESIDE_LONGITUDE_0) && tally.turns == 0);
        let named = without.map(|(name, _)| format!("{name}: a longitude of a whole turn"));
        named.collect()
    }

    fn stack_suffices(&self) -> bool {
        let (used, promised) = (self.stack.used(), stack::promised());
        println!(
            "stack: at most {used} bytes of finder_run in use, FINDER_STACK_BYTES is {promised}"
        );
        if used > promised {
            println!("stack: FAILED, include/finder.h asks too little of a host");
        }
        used <= promised
    }
}

/// How these bytes differ from the reply, or a longitude in it from what document 02 promises.
fn difference(reply: &Reply, bytes: &[u8]) -> Option<String> {
    if !reply.agrees(bytes) {
        Some(format!("{bytes:02x?}, not {reply:x?}"))
    } else if !reply.is_in_turn() {
        Some(format!("a longitude is not in the turn, {reply:x?}"))
    } else {
        None
    }
}

/// The length of the replies to a valid file.
fn needed(file: &[u8]) -> usize {
    let commands = rules::commands(file).expect("the file is valid");
    rules::needed(&commands)
}

/// Compares systematic files and then so many random jobs, or a few more, and says whether all is well.
pub fn run(count: u64) -> bool {
    reference::silence_watched_panics();
    let mut comparison = Comparison::new();
    comparison.systematic();
    let systematic = comparison.total.compared;
    while comparison.total.compared - systematic < count {
        comparison.mixed();
        comparison.depends.compare();
    }
    comparison.print();
    comparison.verdict(count)
}
