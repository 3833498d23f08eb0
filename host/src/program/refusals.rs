//! What a refused job file is told.

use super::input::{is_utf_16, looks_like_a_job, Input};
use super::names::{self, Form};
use super::replies::{self, Refusal, Replied};
use super::stop::Stop;
use super::wording::counted;
use crate::commands::row;

/// The commands of an input with their replies.
pub fn answered(input: &Input) -> Result<Vec<Replied>, Stop> {
    replies::answer(&input.job).map_err(|refusal| {
        let Refusal { number, place } = refusal;
        let (reason, stands) = (names::reason(number), stands(&input.job, refusal));
        let name = &input.name;
        Stop::failed(format!(
            "{name}: refused under {number} at place {place}: {reason}; {stands}"
        ))
    })
}

/// What stands at the place of a refusal.
fn stands(job: &[u8], Refusal { number, place }: Refusal) -> String {
    let place = place as usize;
    let before = || counted(commands_before(job, place), "command");
    match (number, job.get(place)) {
        (1, _) => format!("it has {}", counted(job.len(), "byte")),
        (2, Some(byte)) => {
            let text = of_text(job, *byte);
            format!("byte 0x{byte:02X} stands there, after {}{text}", before())
        }
        (3, None) => format!("the file ends there without code 00, after {}", before()),
        (3, Some(&code)) => cut_short(names::of_code(code), job.len() - place - 1),
        (4, _) => {
            let after = counted(job.len() - place, "byte");
            format!("`end` stands before, with {after} after it")
        }
        _ => format!("the replies need {}", counted(place, "byte")),
    }
}

/// A hint, where the file seems to be a text that was taken for a job file.
fn of_text(job: &[u8], byte: u8) -> &'static str {
    if is_utf_16(job) {
        " (a text in UTF-16 begins so; texts are UTF-8)"
    } else if !byte.is_ascii_graphic() {
        ""
    } else if looks_like_a_job(job) {
        " (a text would have to be UTF-8, without a byte 00)"
    } else {
        " (without --job it is taken for a text)"
    }
}

fn cut_short(form: &Form, follow: usize) -> String {
    let takes = counted(form.row().operands(), "operand byte");
    let name = form.name;
    format!("`{name}` stands there and takes {takes}; the file ends after {follow}")
}

fn commands_before(job: &[u8], place: usize) -> usize {
    let mut at = 0;
    let mut count = 0;
    while at < place {
        at += 1 + row(job[at]).map_or(0, |row| row.operands());
        count += 1;
    }
    count
}
