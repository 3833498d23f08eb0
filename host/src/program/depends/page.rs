//! A report as it is printed.

use super::alone::{self, Settled};
use super::conclusions::{of_alone, of_pair};
use super::names::{listed, short};
use super::pair::{self, Walk};
use super::sha256::sha256;
use super::table::{number, text, Column, Table};
use crate::commands::{ALLOWANCE, ARC, EQUATORIAL_CONE, POLAR_CONE};
use crate::program::help::VERSION;
use crate::program::input::Input;
use crate::program::replies::commands;
use crate::program::wording::on_one_line;

pub enum File<'a> {
    Given(&'a Input),
    /// The first file with every allowance set to this one.
    Made(u8),
}

pub struct Page<'a> {
    files: Vec<File<'a>>,
    table: Table,
    conclusion: String,
    pub depends: bool,
    law: &'static str,
}

const HEADING: &str = "Which replies depend on the iteration allowance";
const ONE_RUN: &str = "This rests on the theorem `one_run_tells` in `crates/claims/proofs/EachReply.antt`, which proves `OneRunTells` in \
`crates/claims/specs/EachReply.antt`: where every step byte of a reply is below its allowance, the reply in any job file that is alike outside \
the operands of code 02 is the same exactly when the allowance there is at least the greatest of these step bytes. The step bytes are those \
of a run with every allowance 255. A command that no allowance comes before has the same reply in all these files, by `reply_by_reply` there.";
const TWO_RUNS: &str = "This rests on the theorems `reply_by_reply` and `slot_by_slot` in `crates/claims/proofs/EachReply.antt`, which prove \
`ReplyByReply` and `SlotBySlot` in `crates/claims/specs/EachReply.antt`: of two accepted job files, alike byte for byte outside the operands of \
code 02, the replies to a command are equal exactly when each walk that it begins has the same allowance in both or ends by itself within \
the smaller; and the step bytes of a slot are equal exactly when its walk has the same allowance or ends so.";

const ALONE: [Column; 4] = [
    number("command"),
    text("job"),
    number("allowance"),
    number("settled from"),
];
const PAIR: [Column; 8] = [
    number("command"),
    text("job"),
    text("walk"),
    number("allowance A"),
    number("allowance B"),
    number("steps A"),
    number("steps B"),
    text("differs"),
];

impl<'a> Page<'a> {
    pub fn alone(file: &'a Input, replies: &[alone::Reply]) -> Self {
        Page {
            files: vec![File::Given(file)],
            table: Table {
                columns: &ALONE,
                rows: replies.iter().enumerate().map(row_alone).collect(),
            },
            conclusion: of_alone(replies),
            depends: !replies.iter().all(alone::Reply::own_settles),
            law: ONE_RUN,
        }
    }

    /// The rows are the walks of the replies that differ.
    pub fn pair(files: [File<'a>; 2], replies: &[pair::Reply]) -> Self {
        let differ = replies.iter().enumerate();
        let differ = differ.filter(|(_, reply)| reply.differs);
        let walks = differ.flat_map(|(place, reply)| {
            let walks = reply.walks.iter();
            walks.map(move |walk| row_pair(place, reply, walk))
        });
        Page {
            files: files.into(),
            table: Table {
                columns: &PAIR,
                rows: walks.collect(),
            },
            conclusion: of_pair(replies),
            depends: replies.iter().any(|reply| reply.differs),
            law: TWO_RUNS,
        }
    }

    pub fn words(&self) -> String {
        let files = match &self.files[..] {
            [_] => String::new(),
            files => files.iter().zip(LETTERS).map(said).collect::<String>() + "\n",
        };
        let table = match self.table.rows[..] {
            [] => String::new(),
            _ => self.table.words() + "\n",
        };
        format!("{files}{table}{}\n", self.conclusion)
    }

    /// A section of a certificate's form.
    pub fn markdown(&self) -> String {
        let letters = match self.files[..] {
            [_] => [""; 2],
            _ => LETTERS,
        };
        let files: String = self.files.iter().zip(letters).map(items).collect();
        let version = VERSION.trim_end().replace('\n', "; ");
        let table = match self.table.rows[..] {
            [] => String::new(),
            _ => self.table.markdown() + "\n",
        };
        let (conclusion, law) = (&self.conclusion, self.law);
        format!("## {HEADING}\n\n{files}- Program: {version}\n\n{table}{conclusion}\n\n{law}\n")
    }
}

fn row_alone((place, reply): (usize, &alone::Reply)) -> Vec<String> {
    vec![
        (place + 1).to_string(),
        short(&reply.command),
        match reply.command.code {
            ARC | EQUATORIAL_CONE | POLAR_CONE => shown(reply.own),
            _ => shown(None),
        },
        match reply.settled {
            Settled::Always => "any".to_string(),
            Settled::From(least) => least.to_string(),
            Settled::NotBy255 => "not by 255".to_string(),
        },
    ]
}

fn row_pair(place: usize, reply: &pair::Reply, walk: &Walk) -> Vec<String> {
    let [of_a, of_b] = reply.allowances.map(shown);
    let [in_a, in_b] = walk.steps.map(|steps| steps.to_string());
    vec![
        (place + 1).to_string(),
        short(&reply.command),
        walk.name.unwrap_or("-").to_string(),
        of_a,
        of_b,
        in_a,
        in_b,
        if walk.differs() { "yes" } else { "no" }.to_string(),
    ]
}

/// An allowance, or that none is set or needed.
fn shown(allowance: Option<u8>) -> String {
    allowance.map_or("-".to_string(), |allowance| allowance.to_string())
}

const LETTERS: [&str; 2] = ["A", "B"];

fn said((file, letter): (&File, &str)) -> String {
    match file {
        File::Given(input) => format!("{letter}: {}\n", on_one_line(&input.name)),
        File::Made(allowance) => format!("{letter}: A with every allowance {allowance}\n"),
    }
}

/// A file's items in the list before the table.
fn items((file, letter): (&File, &str)) -> String {
    let input = match file {
        File::Given(input) => input,
        File::Made(allowance) => {
            return format!("- Job file {letter}: A with every allowance {allowance}\n")
        }
    };
    let (of, made) = match letter {
        "" => (String::new(), "the text"),
        letter => (format!(" of {letter}"), letter),
    };
    let (what, sum) = if input.lines.is_some() {
        ("Text", format!("SHA-256 of the job file that {made} makes"))
    } else {
        ("Job file", format!("SHA-256{of}"))
    };
    let what = format!("{what} {letter}");
    let name = format!("- {}: {}\n", what.trim_end(), code(&input.name));
    let hash = sha256(&input.job).map(|hash| format!("- {sum}: `{hash}`\n"));
    let allowances = format!("- Allowances{of}: {}\n", allowances(&input.job));
    name + &hash.unwrap_or_default() + &allowances
}

/// A name as markdown's code, whatever characters it has.
fn code(name: &str) -> String {
    let longest = name.split(|c| c != '`').map(str::len).max().unwrap_or(0);
    let (fence, space) = match longest {
        0 => ("`".to_string(), ""),
        longest => ("`".repeat(longest + 1), " "),
    };
    let name = on_one_line(name);
    format!("{fence}{space}{name}{space}{fence}")
}

/// Each allowance that a file sets, with the commands that do.
fn allowances(job: &[u8]) -> String {
    let mut places: Vec<(u8, Vec<usize>)> = Vec::new();
    for (place, (_, command)) in commands(job).into_iter().enumerate() {
        if command.code == ALLOWANCE {
            let allowance = command.bytes[0];
            match places.iter_mut().find(|(known, _)| *known == allowance) {
                Some((_, places)) => places.push(place),
                None => places.push((allowance, vec![place])),
            }
        }
    }
    let shown = places
        .iter()
        .map(|(allowance, places)| format!("{allowance} ({})", listed(places)));
    match places[..] {
        [] => "none is set".to_string(),
        _ => shown.collect::<Vec<_>>().join(", "),
    }
}
