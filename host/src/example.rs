//! The example job, examples/field_of_view.txt, as a job file, with its replies by the reference.

mod listing;
mod tables;
mod words;

use crate::commands::REPLY_BUFFER;
use crate::program::text;
use crate::rules::{self, Reply};

/// The text as the tables name it, seen from the repository's root.
const NAME: &str = "examples/field_of_view.txt";
const TEXT: &str = include_str!("../../examples/field_of_view.txt");

pub fn job() -> Vec<u8> {
    match text::read(TEXT) {
        Ok(made) => made.job,
        Err(wrong) => panic!("{NAME}:{}: {}", wrong[0].line, wrong[0].what),
    }
}

/// The example's replies, by document 01's rules and the reference.
fn expected() -> Vec<Reply> {
    rules::run(&job(), REPLY_BUFFER).replies
}

/// Their bytes.
pub fn replies() -> Vec<u8> {
    let mut replies = Vec::new();
    for reply in expected() {
        reply.write(&mut replies);
    }
    replies
}

/// What a host program says of them.
pub fn points() -> Vec<u8> {
    let points: String = expected().iter().map(words::of_reply).collect();
    points.into_bytes()
}

/// What `finder list` says of them in words.
pub fn list() -> Vec<u8> {
    listing::of_replies(&expected()).into_bytes()
}

/// The same as a table: csv, and json.
pub fn tables() -> [Vec<u8>; 2] {
    let rows = tables::of_replies(NAME, &expected());
    [tables::csv(&rows), tables::json(&rows)].map(String::into_bytes)
}
