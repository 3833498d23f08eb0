//! `finder list`: commands and replies in words, or as a table for programs.

use super::arguments::{Arguments, DEGREES, FORMAT};
use super::input::{self, Input};
use super::output::Output;
use super::refusals::answered;
use super::replies::Replied;
use super::stop::Stop;
use super::values::Angles;
use super::wording::{on_one_line, quoted};
use super::{csv, json, words, DONE};
use std::ffi::OsStr;

#[derive(Clone, Copy, PartialEq)]
enum Format {
    Words(Angles),
    Csv,
    Json,
}

pub fn run(arguments: &Arguments, output: &mut Output) -> Result<u8, Stop> {
    let format = format(arguments)?;
    let files = arguments.inputs()?;
    let mut listing = Listing {
        format,
        several: files.len() > 1,
        listed: false,
        any_row: false,
        status: DONE,
    };
    match listing.all(&files, arguments, output) {
        // The status says how the files were, of which some may have been bad.
        Err(Stop::ClosedPipe) => Ok(listing.status),
        Err(stop) => Err(stop),
        Ok(()) if !listing.listed => Err(Stop::Failed(Vec::new())),
        Ok(()) => Ok(listing.status),
    }
}

fn format(arguments: &Arguments) -> Result<Format, Stop> {
    let degrees = arguments.has(&DEGREES);
    let format = arguments.value(&FORMAT).map(OsStr::to_string_lossy);
    match format.as_deref() {
        None | Some("words") => Ok(Format::Words(if degrees {
            Angles::Degrees
        } else {
            Angles::Radians
        })),
        Some("csv" | "json") if degrees => {
            let message = "--degrees is for words alone; csv and json are in radians, so that each number gives back its bits";
            Err(Stop::Usage(message.to_string()))
        }
        Some("csv") => Ok(Format::Csv),
        Some("json") => Ok(Format::Json),
        Some(other) => {
            let other = quoted(other);
            Err(Stop::Usage(format!(
                "{other} is no format; words, csv and json are"
            )))
        }
    }
}

struct Listing {
    format: Format,
    several: bool,
    /// Whether an input has been listed, and whether a row of json is there.
    listed: bool,
    any_row: bool,
    status: u8,
}

impl Listing {
    fn all(
        &mut self,
        files: &[&OsStr],
        arguments: &Arguments,
        output: &mut Output,
    ) -> Result<(), Stop> {
        let (before, after) = match self.format {
            Format::Words(_) => (String::new(), ""),
            Format::Csv => (csv::header(), ""),
            Format::Json => ("[".to_string(), "\n]\n"),
        };
        output.write(before.as_bytes())?;
        for file in files {
            let listed =
                input::read(file, arguments).and_then(|input| Ok((answered(&input)?, input)));
            match listed {
                Ok((replies, input)) => {
                    output.write(self.of(&input, &replies).as_bytes())?;
                    self.listed = true;
                }
                Err(Stop::Failed(messages)) => self.status = Stop::Failed(messages).report(),
                Err(stop) => return Err(stop),
            }
        }
        output.write(after.as_bytes())
    }

    fn of(&mut self, input: &Input, replies: &[Replied]) -> String {
        match self.format {
            Format::Words(angles) => {
                self.above(input, angles) + &words::of_replies(&input.job, replies, angles)
            }
            Format::Csv => csv::of_replies(input, replies),
            Format::Json => json::of_replies(input, replies, &mut self.any_row),
        }
    }

    /// What stands above the words of an input.
    fn above(&self, input: &Input, angles: Angles) -> String {
        let before = match (self.listed, angles) {
            (true, _) => "\n",
            (false, Angles::Degrees) => "angles in degrees\n",
            _ => "",
        };
        let name = match self.several {
            true => on_one_line(&input.name) + ":\n",
            false => String::new(),
        };
        format!("{before}{name}")
    }
}
