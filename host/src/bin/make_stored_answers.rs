//! Makes the stored answers, and the example job with its replies and what a host program and `finder list` say of them, from document 01's rules
//! and the reference.
//!
//! `make_stored_answers [--check]`, run in the repository's root, writes the files; with `--check` it writes nothing, and fails unless those that are
//! there are the same.

use std::env;
use std::process::ExitCode;

#[cfg(reference)]
fn files() -> Result<[(&'static str, Vec<u8>); 7], String> {
    let stored = host::stored_answers::make()?;
    println!("make_stored_answers: {stored}");
    let [csv, json] = host::example::tables();
    Ok([
        ("crates/stored_answers/stdin", stored.bytes),
        ("examples/field_of_view.job", host::example::job()),
        ("examples/field_of_view.reply", host::example::replies()),
        ("examples/field_of_view.points", host::example::points()),
        ("examples/field_of_view.list", host::example::list()),
        ("examples/field_of_view.csv", csv),
        ("examples/field_of_view.json", json),
    ])
}

#[cfg(reference)]
fn same(path: &str, made: &[u8]) -> Result<String, String> {
    let there = std::fs::read(path).map_err(|error| format!("{path}: {error}"))?;
    if there == made {
        return Ok(format!("{path} is the same"));
    }
    let alike = there.iter().zip(made).take_while(|(a, b)| a == b);
    let alike = alike.count();
    Err(format!(
        "{path} differs from byte {alike} on from what is made"
    ))
}

#[cfg(reference)]
fn write(path: &str, made: &[u8]) -> Result<String, String> {
    std::fs::write(path, made).map_err(|error| format!("{path}: {error}"))?;
    Ok(format!("{path} is written"))
}

#[cfg(reference)]
fn run(check: bool) -> ExitCode {
    let each = if check { same } else { write };
    let all = files().and_then(|files| {
        for (path, made) in &files {
            println!("make_stored_answers: {}", each(path, made)?);
        }
        Ok(())
    });
    match all {
        Ok(()) => ExitCode::SUCCESS,
        Err(message) => {
            eprintln!("make_stored_answers: {message}");
            ExitCode::FAILURE
        }
    }
}

#[cfg(not(reference))]
fn run(_check: bool) -> ExitCode {
    host::programs::not_run("make_stored_answers")
}

fn main() -> ExitCode {
    let arguments: Vec<_> = env::args().skip(1).collect();
    match arguments.as_slice() {
        [] => run(false),
        [option] if option == "--check" => run(true),
        _ => {
            eprintln!("usage: make_stored_answers [--check]");
            ExitCode::from(2)
        }
    }
}
