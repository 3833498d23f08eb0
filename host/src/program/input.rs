//! Reads job files, and texts that job files are made from.

use super::arguments::{Arguments, JOB, TEXT};
use super::stop::{complain, reason, Stop};
use super::text;
use std::ffi::OsStr;
use std::fs::File;
use std::io::{self, IsTerminal, Read};
use std::path::Path;

/// No text needs more; what is longer is not read to its end.
const MOST_READ: u64 = 16 << 20;

pub struct Input {
    /// As messages have it.
    pub name: String,
    pub job: Vec<u8>,
    /// The line of each command and of `end`, if the job file is made from a text.
    pub lines: Option<Vec<usize>>,
}

/// Reads a file, or standard input for `-`.
pub fn read(file: &OsStr, arguments: &Arguments) -> Result<Input, Stop> {
    let forms = (arguments.has(&TEXT), arguments.has(&JOB));
    if forms == (true, true) {
        let message = "--text and --job exclude each other";
        return Err(Stop::Usage(message.to_string()));
    }
    let (name, bytes) = read_bytes(file)?;
    let is_job = match forms {
        (false, false) => looks_like_a_job(&bytes),
        (_, job) => job,
    };
    if is_job {
        return Ok(Input {
            name,
            job: bytes,
            lines: None,
        });
    }
    from_text(name, &bytes)
}

pub fn looks_like_a_job(bytes: &[u8]) -> bool {
    bytes.contains(&0) || std::str::from_utf8(bytes).is_err()
}

/// By the mark at its start; no code is one of its bytes.
pub fn is_utf_16(bytes: &[u8]) -> bool {
    bytes.starts_with(b"\xFF\xFE") || bytes.starts_with(b"\xFE\xFF")
}

/// Reads a text; a job file is none.
pub fn read_text(file: &OsStr) -> Result<Input, Stop> {
    let (name, bytes) = read_bytes(file)?;
    if bytes.contains(&0) {
        let what = match is_utf_16(&bytes) {
            true => "is a text in UTF-16; texts are UTF-8",
            false => "holds a byte 00, as a job file does; `finder show` makes a text from one",
        };
        return Err(Stop::failed(format!("{name}: {what}")));
    }
    from_text(name, &bytes)
}

fn read_bytes(file: &OsStr) -> Result<(String, Vec<u8>), Stop> {
    let (name, read) = if file == "-" {
        say_how_to_end();
        ("standard input".to_string(), read_some(io::stdin().lock()))
    } else {
        let name = Path::new(file).display().to_string();
        (name, File::open(file).and_then(read_some))
    };
    match read {
        Ok(bytes) if bytes.len() as u64 > MOST_READ => Err(Stop::failed(format!(
            "{name}: has more than 16 MiB, too much for a job or its text"
        ))),
        Ok(bytes) => Ok((name, bytes)),
        Err(error) => Err(Stop::failed(format!("{name}: {}", reason(&error)))),
    }
}

/// Where standard input is a terminal, says how it is ended.
pub fn say_how_to_end() {
    if io::stdin().is_terminal() {
        complain("reading from the terminal; end with ctrl-D");
    }
}

fn read_some(from: impl Read) -> io::Result<Vec<u8>> {
    let mut bytes = Vec::new();
    from.take(MOST_READ + 1).read_to_end(&mut bytes)?;
    Ok(bytes)
}

fn from_text(name: String, bytes: &[u8]) -> Result<Input, Stop> {
    let text = match std::str::from_utf8(bytes) {
        Ok(text) => text,
        Err(error) => {
            let line = bytes[..error.valid_up_to()]
                .iter()
                .filter(|byte| **byte == b'\n')
                .count()
                + 1;
            return Err(Stop::failed(format!(
                "{name}:{line}: a byte isn't UTF-8, in which texts are written"
            )));
        }
    };
    match text::read(text) {
        Ok(made) => Ok(Input {
            name,
            job: made.job,
            lines: Some(made.lines),
        }),
        Err(wrong) => {
            let messages = wrong
                .iter()
                .map(|wrong| format!("{name}:{}: {}", wrong.line, wrong.what));
            Err(Stop::Failed(messages.collect()))
        }
    }
}
