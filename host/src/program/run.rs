//! `finder run`: the bytes of the reply file.

use super::arguments::Arguments;
use super::output::Output;
use super::refusals::answered;
use super::stop::Stop;
use super::{input, DONE};

pub fn run(arguments: &Arguments, output: &mut Output) -> Result<u8, Stop> {
    let input = input::read(arguments.inputs()?[0], arguments)?;
    let replies: Vec<u8> = answered(&input)?
        .into_iter()
        .flat_map(|it| it.reply)
        .collect();
    output.write(&replies)?;
    Ok(DONE)
}
