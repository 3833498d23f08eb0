//! From the text form of a job to the bytes of the job file.

use super::names::{Form, Kind, Operand, DEGREES, FORMS, RADIANS};
use super::numbers;
use super::wording::{self, counted, quoted};
use crate::commands::{END, MOST_BYTES};
use std::f64::consts::PI;

/// A job file made from a text, and the line of each of its commands, of `end` too.
#[derive(Default)]
pub struct Made {
    pub job: Vec<u8>,
    pub lines: Vec<usize>,
}

pub struct Wrong {
    pub line: usize,
    pub what: String,
}

/// The job file, or everything that is wrong with the text.
pub fn read(text: &str) -> Result<Made, Vec<Wrong>> {
    let text = text.strip_prefix('\u{FEFF}').unwrap_or(text);
    // The last CR LF may have lost its LF; `lines` takes CR for the end of a line with LF alone.
    let text = text.strip_suffix('\r').unwrap_or(text);
    let mut reader = Reader::default();
    for line in text.lines() {
        reader.line += 1;
        let command = line.split('#').next().unwrap_or_default();
        let words: Vec<&str> = command
            .split([' ', '\t'])
            .filter(|word| !word.is_empty())
            .collect();
        if let Some((name, operands)) = words.split_first() {
            reader.take(name, operands);
        }
    }
    if !reader.ended {
        reader.line = reader.line.max(1);
        reader.wrong("`end` is missing; it comes last".to_string());
    }
    match reader.wrong {
        wrong if wrong.is_empty() => Ok(reader.made),
        wrong => Err(wrong),
    }
}

#[derive(Default)]
struct Reader {
    line: usize,
    made: Made,
    /// The length of the job file so far, wrong commands with it.
    length: usize,
    degrees: bool,
    ended: bool,
    wrong: Vec<Wrong>,
}

impl Reader {
    fn wrong(&mut self, what: String) {
        let line = self.line;
        self.wrong.push(Wrong { line, what });
    }

    fn take(&mut self, name: &str, operands: &[&str]) {
        let form = FORMS.iter().find(|form| form.name == name);
        if self.ended {
            let name = quoted(name);
            self.wrong(format!(
                "{name} comes after `end`, where only comments may stand"
            ));
        } else if let Some(form) = form {
            self.command(form, operands);
        } else if [DEGREES, RADIANS].contains(&name) {
            self.degrees = name == DEGREES;
            if !operands.is_empty() {
                self.wrong(miscounted(name, operands));
            }
        } else {
            self.wrong(unknown(name));
        }
    }

    fn command(&mut self, form: &Form, given: &[&str]) {
        self.ended = form.code == END;
        self.add_length(1 + form.row().operands());
        if given.len() != form.operands().count() {
            return self.wrong(miscounted(&form.usage(), given));
        }
        self.made.lines.push(self.line);
        self.made.job.push(form.code);
        for (operand, word) in form.operands().zip(given) {
            match self.bytes(&operand, word) {
                Ok(bytes) => self.made.job.extend(bytes),
                Err(what) => self.wrong(format!("{}: {what}", operand.name)),
            }
        }
    }

    fn add_length(&mut self, bytes: usize) {
        let fitted = self.length <= MOST_BYTES;
        self.length += bytes;
        if fitted && self.length > MOST_BYTES {
            self.wrong(
                "with this line the job file has more than 16,384 bytes, the most that it may have"
                    .to_string(),
            );
        }
    }

    fn bytes(&self, operand: &Operand, word: &str) -> Result<Vec<u8>, String> {
        let scale = match operand.kind {
            Kind::Byte => return byte(operand, word).map(|byte| vec![byte]),
            Kind::Angle if self.degrees => PI / 180.0,
            _ => 1.0,
        };
        Ok(numbers::read(word, scale)?.to_le_bytes().to_vec())
    }
}

fn byte(operand: &Operand, word: &str) -> Result<u8, String> {
    let expected = "a whole number from 0 to 255";
    let number = word.parse().ok();
    let (flag, expected) = match operand.flag() {
        Some((one, _)) if word == one => (Some(1), String::new()),
        Some((_, zero)) if word == zero => (Some(0), String::new()),
        Some((one, zero)) => (None, format!("{one}, {zero} or {expected}")),
        None => (None, expected.to_string()),
    };
    flag.or(number)
        .ok_or_else(|| format!("{} is wrong; {expected} is expected", quoted(word)))
}

fn miscounted(usage: &str, given: &[&str]) -> String {
    let given = counted(given.len(), "operand");
    format!("{given} given; the form is `{usage}`")
}

fn unknown(name: &str) -> String {
    let names = FORMS.iter().map(|form| form.name);
    let bytes = match name.contains(char::is_control) {
        true => " (a job file is shown by `finder show --job`)",
        false => "",
    };
    wording::unknown("command", name, names.chain([DEGREES, RADIANS])) + bytes
}
