//! `finder show`: a job file as text.

use super::arguments::Arguments;
use super::input;
use super::names;
use super::output::Output;
use super::refusals::answered;
use super::stop::Stop;
use super::values::{line, Angles};
use super::DONE;
use crate::commands::END;

pub fn run(arguments: &Arguments, output: &mut Output) -> Result<u8, Stop> {
    let input = input::read(arguments.inputs()?[0], arguments)?;
    let mut text = String::new();
    for replied in answered(&input)? {
        let operands = &input.job[replied.place + 1..];
        text += &line(replied.command.code, operands, Angles::Radians);
        text.push('\n');
    }
    text += names::of_code(END).name;
    text.push('\n');
    output.write(text.as_bytes())?;
    Ok(DONE)
}
