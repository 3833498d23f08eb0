//! The arguments of a subcommand: its options, before or after its operands.

use super::stop::Stop;
use super::wording;
use std::ffi::{OsStr, OsString};
use std::os::unix::ffi::OsStrExt;

pub struct Opt {
    pub long: &'static str,
    pub short: Option<&'static str>,
    /// The name of the value that comes with it.
    pub value: Option<&'static str>,
}

const fn switch(long: &'static str) -> Opt {
    Opt {
        long,
        short: None,
        value: None,
    }
}

pub static HELP: Opt = Opt {
    short: Some("-h"),
    ..switch("--help")
};
pub static TEXT: Opt = switch("--text");
pub static JOB: Opt = switch("--job");
pub static OUTPUT: Opt = Opt {
    short: Some("-o"),
    value: Some("FILE"),
    ..switch("--output")
};
pub static FORCE: Opt = switch("--force");
pub static FORMAT: Opt = Opt {
    value: Some("FORMAT"),
    ..switch("--format")
};
pub static ALLOWANCE: Opt = Opt {
    value: Some("N"),
    ..switch("--allowance")
};
pub static DEGREES: Opt = switch("--degrees");

/// What a subcommand takes beside its options.
pub enum Operands {
    /// So many at most.
    Files(usize),
    /// One, or none.
    Number,
}

#[derive(Default)]
pub struct Arguments {
    pub operands: Vec<OsString>,
    given: Vec<(&'static str, OsString)>,
}

impl Arguments {
    pub fn parse(
        subcommand: &str,
        arguments: &[OsString],
        options: &[&'static Opt],
    ) -> Result<Self, Stop> {
        let mut parsed = Arguments::default();
        let mut rest = arguments.iter();
        while let Some(argument) = rest.next() {
            let shown = argument.to_string_lossy();
            if shown == "--" {
                parsed.operands.extend(rest.cloned());
                break;
            }
            if !is_option(&shown) {
                parsed.operands.push(argument.clone());
                continue;
            }
            let (name, value) = cut(argument);
            let option = find(&name, options).ok_or_else(|| unknown(subcommand, &name, options))?;
            let value = take(option, &name, value, &mut rest)?;
            if option.value.is_some() && parsed.has(option) {
                return Err(Stop::Usage(format!("{} is given twice", option.long)));
            }
            parsed.given.push((option.long, value));
        }
        Ok(parsed)
    }

    /// Sees that no file's name is empty, and that there are not more operands than are taken.
    pub fn check(&self, subcommand: &str, taken: &Operands) -> Result<(), Stop> {
        let (most, what, files) = match taken {
            Operands::Files(most) => (*most, "file", &self.operands[..]),
            Operands::Number => (1, "number", &[][..]),
        };
        let mut names = files
            .iter()
            .map(OsString::as_os_str)
            .chain(self.value(&OUTPUT));
        if names.any(|name| name.is_empty()) {
            return Err(Stop::Usage("the name of a file is empty".to_string()));
        }
        let given = self.operands.len();
        if given > most {
            let most = wording::counted(most, what);
            let message = format!("{subcommand} takes at most {most}, and {given} are given");
            return Err(Stop::Usage(message));
        }
        Ok(())
    }

    pub fn has(&self, option: &Opt) -> bool {
        self.value(option).is_some()
    }

    pub fn value(&self, option: &Opt) -> Option<&OsStr> {
        let mut given = self.given.iter();
        given
            .find(|(long, _)| *long == option.long)
            .map(|(_, value)| value.as_os_str())
    }

    /// The files, or standard input where there is none.
    pub fn inputs(&self) -> Result<Vec<&OsStr>, Stop> {
        if self.operands.is_empty() {
            return Ok(vec![OsStr::new("-")]);
        }
        if self.operands.iter().filter(|file| *file == "-").count() > 1 {
            let message = "standard input can be read only once";
            return Err(Stop::Usage(message.to_string()));
        }
        Ok(self.operands.iter().map(OsString::as_os_str).collect())
    }
}

/// A minus alone is standard input, and before a digit it is a sign.
fn is_option(argument: &str) -> bool {
    let after_minus = argument.strip_prefix('-');
    after_minus.is_some_and(|rest| rest.starts_with(|next: char| !next.is_ascii_digit()))
}

/// The name of an option, and its value after `=`.
fn cut(argument: &OsStr) -> (String, Option<OsString>) {
    let bytes = argument.as_bytes();
    let equals = bytes.iter().position(|byte| *byte == b'=');
    let (Some(at), true) = (equals, bytes.starts_with(b"--")) else {
        return (argument.to_string_lossy().into_owned(), None);
    };
    let name = String::from_utf8_lossy(&bytes[..at]).into_owned();
    (name, Some(OsStr::from_bytes(&bytes[at + 1..]).to_owned()))
}

fn find(name: &str, options: &[&'static Opt]) -> Option<&'static Opt> {
    let is = |option: &&&'static Opt| option.long == name || option.short == Some(name);
    options.iter().find(is).copied()
}

fn unknown(subcommand: &str, name: &str, options: &[&'static Opt]) -> Stop {
    let names = options
        .iter()
        .flat_map(|option| option.short.into_iter().chain([option.long]));
    Stop::Usage(wording::unknown(
        &format!("option of {subcommand}"),
        name,
        names,
    ))
}

fn take<'a>(
    option: &Opt,
    name: &str,
    value: Option<OsString>,
    rest: &mut impl Iterator<Item = &'a OsString>,
) -> Result<OsString, Stop> {
    let usage = match (option.value, value) {
        (None, None) => return Ok(OsString::new()),
        (Some(_), Some(value)) => return Ok(value),
        (None, Some(_)) => format!("{name} takes no value"),
        (Some(what), None) => match rest.next() {
            Some(value) => return Ok(value.clone()),
            None => format!("{name} needs a value: {name} {what}"),
        },
    };
    Err(Stop::Usage(usage))
}
