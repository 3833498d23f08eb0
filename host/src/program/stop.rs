//! Why a subcommand ends early, and messages on standard error.

use super::wording::on_one_line;
use super::{DONE, FAILED, USAGE};
use std::io::{self, ErrorKind, Write};

pub enum Stop {
    Usage(String),
    /// What could not be done, a message each. Those that have been said already are left out.
    Failed(Vec<String>),
    /// Nobody reads what is written.
    ClosedPipe,
}

impl Stop {
    pub fn failed(message: String) -> Self {
        Stop::Failed(vec![message])
    }

    /// All results, or every message of those that failed.
    pub fn gather<T>(results: impl Iterator<Item = Result<T, Stop>>) -> Result<Vec<T>, Stop> {
        let (mut all, mut messages) = (Vec::new(), Vec::new());
        for result in results {
            match result {
                Ok(one) => all.push(one),
                Err(Stop::Failed(more)) => messages.extend(more),
                Err(stop) => return Err(stop),
            }
        }
        match messages[..] {
            [] => Ok(all),
            _ => Err(Stop::Failed(messages)),
        }
    }

    /// Says what there is to say, and answers the exit status.
    pub fn report(self) -> u8 {
        match self {
            Stop::Usage(message) => {
                complain(&message);
                USAGE
            }
            Stop::Failed(messages) => {
                for message in &messages {
                    complain(message);
                }
                FAILED
            }
            Stop::ClosedPipe => DONE,
        }
    }
}

pub fn complain(message: &str) {
    say(&format!("finder: {}", on_one_line(message)));
}

/// Writes a line to standard error, at once, so that what others write doesn't come between. Where that fails, nobody can be told.
pub fn say(line: &str) {
    let _ = io::stderr().write_all(format!("{line}\n").as_bytes());
}

/// What is wrong with a file or a stream.
pub fn reason(error: &io::Error) -> String {
    match error.kind() {
        ErrorKind::NotFound => "there is no such file or folder".to_string(),
        ErrorKind::PermissionDenied => "permission is denied".to_string(),
        ErrorKind::IsADirectory => "is a folder; a file is needed".to_string(),
        _ => {
            let text = error.to_string();
            let end = text.find(" (os error").unwrap_or(text.len());
            text[..end].to_string()
        }
    }
}
