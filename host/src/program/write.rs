//! `finder write`: a job file from a text.

use super::arguments::Arguments;
use super::output::Output;
use super::stop::Stop;
use super::{input, DONE};

pub fn run(arguments: &Arguments, output: &mut Output) -> Result<u8, Stop> {
    let input = input::read_text(arguments.inputs()?[0])?;
    output.write(&input.job)?;
    Ok(DONE)
}
