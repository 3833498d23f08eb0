//! `finder patterns`: every command pattern, as the proved program lists them.

use super::arguments::Arguments;
use super::output::Output;
use super::stop::{reason, Stop};
use super::wording::quoted;
use super::{input, DONE};
use std::env;
use std::ffi::{OsStr, OsString};
use std::io::{self, ErrorKind, Write};
use std::os::unix::ffi::OsStrExt;
use std::path::{Path, PathBuf};
use std::process::{Command, Output as Ended, Stdio};

/// Where this program is built, from the repository's root.
const PLACE: &str = "host/target/release";
/// What the proved program prints for a wrong number.
const WRONG: &[u8] = b"11\n";

pub fn run(arguments: &Arguments, output: &mut Output) -> Result<u8, Stop> {
    let number = arguments.operands.first().map(OsString::as_os_str);
    let number = number.filter(|number| *number != "-");
    let listing = ask(number)?;
    if listing == WRONG {
        return Err(wrong(number));
    }
    output.write(&listing)?;
    Ok(DONE)
}

/// The error goes to standard output, also where the listing was to go to a file.
fn wrong(number: Option<&OsStr>) -> Stop {
    let given = match number {
        Some(number) => quoted(&number.to_string_lossy()),
        None => "standard input".to_string(),
    };
    let message = format!("{given} is no number of commands; one digit from 1 to 5 is");
    let mut messages = vec![message];
    if let Err(Stop::Failed(more)) = Output::standard().write(WRONG) {
        messages.extend(more);
    }
    Stop::Failed(messages)
}

/// What the proved program prints for this number, or for what is on standard input.
fn ask(number: Option<&OsStr>) -> Result<Vec<u8>, Stop> {
    let program = place()?;
    let failed = |why: String| {
        let program = program.display();
        let message = format!("{program}: {why}; `./finder patterns` makes it where it is missing");
        Stop::failed(message)
    };
    match feed(&program, number) {
        Ok(ended) if ended.status.success() => Ok(ended.stdout),
        Ok(ended) => Err(failed(format!("has failed ({})", ended.status))),
        Err(error) => Err(failed(reason(&error))),
    }
}

fn feed(program: &Path, number: Option<&OsStr>) -> io::Result<Ended> {
    let mut command = Command::new(program);
    command.stdout(Stdio::piped());
    let Some(number) = number else {
        input::say_how_to_end();
        return command.stdin(Stdio::inherit()).spawn()?.wait_with_output();
    };
    let mut child = command.stdin(Stdio::piped()).spawn()?;
    let mut stdin = child.stdin.take().expect("it is a pipe");
    let written = stdin.write_all(number.as_bytes());
    drop(stdin);
    let ended = child.wait_with_output()?;
    match written {
        // It may end before it has read all.
        Err(error) if error.kind() != ErrorKind::BrokenPipe => Err(error),
        _ => Ok(ended),
    }
}

/// Where the proved program stands, as seen from host/target/release/finder.
fn place() -> Result<PathBuf, Stop> {
    let own = env::current_exe().unwrap_or_default();
    let folder = own.parent().filter(|folder| folder.ends_with(PLACE));
    match folder.and_then(|folder| folder.ancestors().nth(3)) {
        Some(root) => Ok(root.join("crates/patterns/out/patterns")),
        None => {
            let message = format!("this program is not in its place, {PLACE} of the repository; `./finder` puts it there");
            Err(Stop::failed(message))
        }
    }
}
