//! Help pages, and the version.

use super::stop::Stop;
use super::subcommands;
use std::ffi::OsString;

/// How help is asked for.
pub const OF_HELP: [&str; 3] = ["help", "--help", "-h"];
pub const OVERVIEW: &str = include_str!("help.txt");
pub const VERSION: &str = concat!(
    "finder ",
    env!("CARGO_PKG_VERSION"),
    " (Rennaglyph)\n",
    env!("FINDER_KIT"),
    "\n"
);

/// The page of a subcommand, or the overview.
pub fn page(arguments: &[OsString]) -> Result<&'static str, Stop> {
    let name = match arguments {
        [] => return Ok(OVERVIEW),
        [name] => name.to_string_lossy(),
        _ => return Err(Stop::Usage("help takes one subcommand".to_string())),
    };
    match subcommands::find(&name) {
        Some(subcommand) => Ok(subcommand.page),
        None if OF_HELP.contains(&&*name) => Ok(OVERVIEW),
        None => Err(Stop::Usage(subcommands::unknown(&name))),
    }
}
