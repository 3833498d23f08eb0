//! What `finder depends` reports, against document 01's rules and the reference, on many short files.

pub mod expected;

use super::MOST_SHOWN;
use crate::commands::ALLOWANCE;
use crate::job_files::{file_of, Maker};
use crate::outcomes::print_row;
use crate::program::depends::alone::{self, Settled};
use crate::program::depends::files::alike;
use crate::program::depends::pair;
use crate::program::replies::answer;
use crate::random::Random;
use crate::rules;
use expected::Alone;

const SEED: u64 = 0x4465_7065;
/// The most bytes of a file that is compared with another, and of one that is run with every allowance.
const PAIRED: usize = 340;
const ALONE: usize = 260;
/// One in so many turns runs a file with every allowance.
const ALONE_EVERY: u64 = 2;

/// How often a question had which answer by the rules.
#[derive(Default)]
struct Tally {
    yes: u64,
    no: u64,
    /// Reports that have another.
    wrong: u64,
}

const QUESTIONS: [&str; 6] = [
    "two files: alike",
    "two files: a reply with walks depends",
    "one file: 255 settles a reply with walks",
    "one file: its own allowance settles it",
    "one file: a larger allowance changes it",
    "one file: its own is the 255 that doesn't settle it",
];
const ALIKE: usize = 0;
const DEPENDS: usize = 1;
const BY_255: usize = 2;
const BY_OWN: usize = 3;
const CHANGES: usize = 4;
const OWN_255: usize = 5;

pub struct Depends {
    maker: Maker,
    turns: u64,
    tallies: [Tally; QUESTIONS.len()],
    /// Replies with a slot that the reference did not come to.
    unknown: u64,
    shown: u64,
}

impl Depends {
    pub fn new() -> Self {
        Depends {
            maker: Maker::new(SEED),
            turns: 0,
            tallies: Default::default(),
            unknown: 0,
            shown: 0,
        }
    }

    /// A file and one that is alike; a file and one that may not be; now and then a file alone.
    pub fn compare(&mut self) {
        let file = self.maker.mixed(PAIRED).bytes;
        let other = with_others(&file, &mut self.maker.random);
        self.compare_alike(&file, &other);
        self.compare_pair(&file, &other);
        let changed = changed(&other, &mut self.maker.random);
        if rules::commands(&changed).is_ok() {
            self.compare_alike(&file, &changed);
        }
        self.turns += 1;
        if self.turns % ALONE_EVERY == 0 {
            let file = self.maker.mixed(ALONE).bytes;
            let file = with_others(&file, &mut self.maker.random);
            self.compare_alone(&file);
        }
    }

    fn count(&mut self, question: usize, expected: bool, agrees: bool, files: &[&[u8]]) {
        let tally = &mut self.tallies[question];
        tally.yes += u64::from(expected);
        tally.no += u64::from(!expected);
        if !agrees {
            tally.wrong += 1;
            self.shown += 1;
        }
        if !agrees && self.shown <= MOST_SHOWN {
            let name = QUESTIONS[question];
            println!("depends, {name}: {expected} by the rules; {files:02x?}");
        }
    }

    fn compare_alike(&mut self, a: &[u8], b: &[u8]) {
        let expected = expected::alike(a, b);
        let agrees = alike(a, b) == expected;
        self.count(ALIKE, expected.is_ok(), agrees, &[a, b]);
    }

    fn compare_pair(&mut self, a: &[u8], b: &[u8]) {
        let (Ok(in_a), Ok(in_b)) = (answer(a), answer(b)) else {
            return self.count(DEPENDS, false, false, &[a, b]);
        };
        let reports = pair::compare(&in_a, &in_b);
        let replies = expected::pair(a, b);
        assert_eq!(reports.len(), replies.len(), "a reply for each command");
        for (report, expected) in reports.iter().zip(replies) {
            match expected {
                None => self.unknown += 1,
                Some(expected) if expected.walks.is_empty() && expected.is(report) => {}
                Some(expected) => {
                    let agrees = expected.is(report);
                    self.count(DEPENDS, expected.differs, agrees, &[a, b]);
                }
            }
        }
    }

    fn compare_alone(&mut self, file: &[u8]) {
        let Ok(answered) = answer(file) else {
            return self.count(BY_255, false, false, &[file]);
        };
        let reports = alone::settle(file, &answered);
        let replies = expected::alone(file);
        assert_eq!(reports.len(), replies.len(), "a reply for each command");
        for (report, expected) in reports.iter().zip(replies) {
            let Some(expected) = expected else {
                self.unknown += 1;
                continue;
            };
            self.compare_reply(file, report, &expected);
        }
    }

    fn compare_reply(&mut self, file: &[u8], report: &alone::Reply, expected: &Alone) {
        let same = report.settled == expected.settled && report.own == expected.own;
        let by_own = report.own_settles() == expected.own_settles;
        let changes = report.changes == expected.changes;
        if expected.settled == Settled::Always && same && by_own && changes {
            return;
        }
        let by_255 = expected.settled != Settled::NotBy255;
        self.count(BY_255, by_255, same, &[file]);
        self.count(BY_OWN, expected.own_settles, by_own, &[file]);
        self.count(CHANGES, expected.changes, changes, &[file]);
        if !by_255 {
            let own_255 = expected.own == Some(u8::MAX);
            self.count(OWN_255, own_255, by_own && changes, &[file]);
        }
    }

    pub fn print(&self) {
        print_row("depends", ["yes", "no", "differ"]);
        for (name, tally) in QUESTIONS.iter().zip(&self.tallies) {
            print_row(name, [tally.yes, tally.no, tally.wrong]);
        }
        print_row("replies that the reference did not finish", [self.unknown]);
    }

    /// Says whether every report agrees.
    pub fn verdict(&self) -> bool {
        let tallies = || self.tallies.iter();
        let compared: u64 = tallies().map(|tally| tally.yes + tally.no).sum();
        let wrong: u64 = tallies().map(|tally| tally.wrong).sum();
        println!("depends: {compared} answers compared, {wrong} differ");
        wrong == 0
    }

    /// The answers that were never due.
    pub fn missing(&self) -> Vec<String> {
        let answers = QUESTIONS.iter().zip(&self.tallies);
        let answers =
            answers.flat_map(|(name, tally)| [(name, "yes", tally.yes), (name, "no", tally.no)]);
        let missing = answers.filter(|(_, _, count)| *count == 0);
        missing
            .map(|(name, answer, _)| format!("{name}: {answer}"))
            .collect()
    }
}

/// The file with other operands of code 02, or the same.
pub fn with_others(file: &[u8], random: &mut Random) -> Vec<u8> {
    let mut commands = rules::commands(file).expect("the file is valid");
    for command in commands
        .iter_mut()
        .filter(|command| command.code == ALLOWANCE)
    {
        let allowance = &mut command.bytes[0];
        *allowance = match random.below(6) {
            0 => *allowance,
            1 => allowance.wrapping_add(1),
            2 => allowance.wrapping_sub(1),
            3 => 0,
            4 => u8::MAX,
            _ => random.below(256) as u8,
        };
    }
    file_of(&commands)
}

/// The file with a byte changed or a command left out. It may be refused, or be alike to what it was.
pub fn changed(file: &[u8], random: &mut Random) -> Vec<u8> {
    let place = random.below(file.len() as u64) as usize;
    if random.flip() {
        let mut changed = file.to_vec();
        changed[place] ^= 1 << random.below(8);
        return changed;
    }
    let mut commands = rules::commands(file).expect("the file is valid");
    commands.remove(place % commands.len());
    file_of(&commands)
}
