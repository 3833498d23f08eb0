//! `finder depends`: which replies depend on the iteration allowance. Replies and step bytes are compared, and nothing else; what follows from
//! them is proved in crates/claims/proofs/EachReply.antt.

pub mod alone;
mod conclusions;
pub mod files;
mod names;
mod page;
pub mod pair;
mod sha256;
mod table;

use super::arguments::{Arguments, ALLOWANCE, FORMAT};
use super::input::{self, Input};
use super::output::Output;
use super::refusals::answered;
use super::replies::{answer, Replied};
use super::stop::Stop;
use super::wording::quoted;
use super::{DEPENDS, DONE};
use files::{alike, with_allowance};
use page::{File, Page};
use std::ffi::OsStr;

/// An input and the replies to it.
type Answered = (Vec<Replied>, Input);

#[derive(Clone, Copy)]
enum Format {
    Words,
    Markdown,
}

pub fn run(arguments: &Arguments, output: &mut Output) -> Result<u8, Stop> {
    let (format, allowance) = (format(arguments)?, allowance(arguments)?);
    let files = arguments.inputs()?;
    if allowance.is_some() && files.len() > 1 {
        let message = "--allowance is for one file, which is compared with itself";
        return Err(Stop::Usage(message.to_string()));
    }
    let answered = files.iter().map(|file| {
        let input = input::read(file, arguments)?;
        Ok((answered(&input)?, input))
    });
    let inputs = Stop::gather(answered)?;
    let page = page(&inputs, allowance)?;
    let text = match format {
        Format::Words => page.words(),
        Format::Markdown => page.markdown(),
    };
    let status = if page.depends { DEPENDS } else { DONE };
    match output.write(text.as_bytes()) {
        // Whoever reads no further may still ask for the status.
        Ok(()) | Err(Stop::ClosedPipe) => Ok(status),
        Err(stop) => Err(stop),
    }
}

fn format(arguments: &Arguments) -> Result<Format, Stop> {
    let format = arguments.value(&FORMAT).map(OsStr::to_string_lossy);
    match format.as_deref() {
        None | Some("words") => Ok(Format::Words),
        Some("markdown") => Ok(Format::Markdown),
        Some(other) => {
            let other = quoted(other);
            Err(Stop::Usage(format!(
                "{other} is no format of depends; words and markdown are"
            )))
        }
    }
}

fn allowance(arguments: &Arguments) -> Result<Option<u8>, Stop> {
    let Some(given) = arguments.value(&ALLOWANCE).map(OsStr::to_string_lossy) else {
        return Ok(None);
    };
    given.parse().map(Some).map_err(|_| {
        let given = quoted(&given);
        Stop::Usage(format!(
            "{given} is no allowance; a whole number from 0 to 255 is"
        ))
    })
}

/// The answer for one input, for one and a second allowance, or for two inputs.
fn page(inputs: &[Answered], allowance: Option<u8>) -> Result<Page<'_>, Stop> {
    match (inputs, allowance) {
        ([(of_a, a), (of_b, b)], _) => {
            alike(&a.job, &b.job).map_err(|place| not_alike(a, b, place))?;
            let replies = pair::compare(of_a, of_b);
            Ok(Page::pair([a, b].map(File::Given), &replies))
        }
        ([(replies, file), ..], Some(allowance)) => {
            let other = accepted(&with_allowance(&file.job, allowance));
            let files = [File::Given(file), File::Made(allowance)];
            Ok(Page::pair(files, &pair::compare(replies, &other)))
        }
        ([(replies, file), ..], None) => Ok(Page::alone(file, &alone::settle(&file.job, replies))),
        ([], _) => unreachable!("without a file, standard input is read"),
    }
}

/// The replies to a file that is accepted, since it is alike to one that is.
fn accepted(job: &[u8]) -> Vec<Replied> {
    match answer(job) {
        Ok(replies) => replies,
        Err(refusal) => panic!("a file that is alike to an accepted one gets {refusal:?}"),
    }
}

fn not_alike(a: &Input, b: &Input, place: usize) -> Stop {
    let difference = names::difference(a, b, place);
    let [a, b] = [&a.name, &b.name];
    Stop::Usage(format!(
        "{a} and {b} are not alike: the first place is {place} ({difference})"
    ))
}
