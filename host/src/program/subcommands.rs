//! The subcommands that take options.

use super::arguments::{
    Arguments, Operands, Opt, ALLOWANCE, DEGREES, FORCE, FORMAT, HELP, JOB, OUTPUT, TEXT,
};
use super::output::Output;
use super::stop::Stop;
use super::{depends, list, patterns, run, show, wording, write};

pub struct Subcommand {
    pub name: &'static str,
    pub page: &'static str,
    pub options: &'static [&'static Opt],
    pub operands: Operands,
    /// Whether it writes bytes that are no text.
    pub bytes: bool,
    pub run: fn(&Arguments, &mut Output) -> Result<u8, Stop>,
}

static OF_ALL: [&Opt; 3] = [&OUTPUT, &FORCE, &HELP];
static OF_BOTH: [&Opt; 5] = [&TEXT, &JOB, &OUTPUT, &FORCE, &HELP];
static OF_DEPENDS: [&Opt; 7] = [&ALLOWANCE, &FORMAT, &TEXT, &JOB, &OUTPUT, &FORCE, &HELP];
static OF_LISTS: [&Opt; 7] = [&FORMAT, &DEGREES, &TEXT, &JOB, &OUTPUT, &FORCE, &HELP];

static SUBCOMMANDS: [Subcommand; 6] = [
    Subcommand {
        name: "write",
        page: include_str!("help/write.txt"),
        options: &OF_ALL,
        operands: Operands::Files(1),
        bytes: true,
        run: write::run,
    },
    Subcommand {
        name: "show",
        page: include_str!("help/show.txt"),
        options: &OF_BOTH,
        operands: Operands::Files(1),
        bytes: false,
        run: show::run,
    },
    Subcommand {
        name: "run",
        page: include_str!("help/run.txt"),
        options: &OF_BOTH,
        operands: Operands::Files(1),
        bytes: true,
        run: run::run,
    },
    Subcommand {
        name: "list",
        page: include_str!("help/list.txt"),
        options: &OF_LISTS,
        operands: Operands::Files(usize::MAX),
        bytes: false,
        run: list::run,
    },
    Subcommand {
        name: "depends",
        page: include_str!("help/depends.txt"),
        options: &OF_DEPENDS,
        operands: Operands::Files(2),
        bytes: false,
        run: depends::run,
    },
    Subcommand {
        name: "patterns",
        page: include_str!("help/patterns.txt"),
        options: &OF_ALL,
        operands: Operands::Number,
        bytes: false,
        run: patterns::run,
    },
];

pub fn find(name: &str) -> Option<&'static Subcommand> {
    SUBCOMMANDS
        .iter()
        .find(|subcommand| subcommand.name == name)
}

pub fn unknown(name: &str) -> String {
    let names = SUBCOMMANDS.iter().map(|subcommand| subcommand.name);
    wording::unknown("subcommand", name, ["help"].into_iter().chain(names))
}
