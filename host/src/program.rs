//! The program for people: job files from texts, replies in words or as tables, and the command patterns.

mod arguments;
mod csv;
pub mod depends;
mod help;
mod input;
mod json;
mod list;
mod names;
mod numbers;
mod output;
mod patterns;
mod refusals;
pub mod replies;
mod rows;
mod run;
mod show;
mod stop;
mod subcommands;
pub mod text;
mod values;
mod wording;
mod words;
mod write;

use arguments::Arguments;
use output::Output;
use std::ffi::OsString;
use std::io::{self, IsTerminal};
use std::path::Path;
use std::process::ExitCode;
use stop::{say, Stop};
use subcommands::Subcommand;

/// The exit statuses.
const DONE: u8 = 0;
const FAILED: u8 = 1;
const USAGE: u8 = 2;
/// Some replies depend on the allowance.
const DEPENDS: u8 = 3;

pub fn main(arguments: Vec<OsString>) -> ExitCode {
    let status = match begin(&arguments) {
        Ok(status) => status,
        Err(stop) => stop.report(),
    };
    ExitCode::from(status)
}

fn begin(arguments: &[OsString]) -> Result<u8, Stop> {
    let Some((first, rest)) = arguments.split_first() else {
        say(help::OVERVIEW.trim_end());
        return Ok(USAGE);
    };
    match &*first.to_string_lossy() {
        name if help::OF_HELP.contains(&name) => print(help::page(rest)?),
        "--version" | "-V" if rest.is_empty() => print(help::VERSION),
        "--version" | "-V" => Err(Stop::Usage("--version stands alone".to_string())),
        name => match subcommands::find(name) {
            Some(subcommand) => perform(subcommand, rest),
            None => Err(Stop::Usage(unknown(name, Path::new(first)))),
        },
    }
}

fn print(text: &str) -> Result<u8, Stop> {
    Output::standard().write(text.as_bytes())?;
    Ok(DONE)
}

fn unknown(name: &str, path: &Path) -> String {
    if path.is_file() {
        return format!(
            "`{name}` is a file, not a subcommand; `finder list {name}` lists its replies, and `finder help` names what else can be done"
        );
    }
    subcommands::unknown(name)
}

fn perform(subcommand: &Subcommand, rest: &[OsString]) -> Result<u8, Stop> {
    let arguments = Arguments::parse(subcommand.name, rest, subcommand.options)?;
    if arguments.has(&arguments::HELP) {
        return print(subcommand.page);
    }
    let name = subcommand.name;
    arguments.check(name, &subcommand.operands)?;
    let mut output = Output::new(&arguments)?;
    if subcommand.bytes && output.is_standard() && io::stdout().is_terminal() {
        let message =
            format!("{name} doesn't send bytes to a terminal; give a file for them with `-o FILE`");
        return Err(Stop::Usage(message));
    }
    let status = (subcommand.run)(&arguments, &mut output)?;
    output.finish()?;
    Ok(status)
}
