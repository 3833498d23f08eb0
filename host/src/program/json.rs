//! Rows as objects of a JSON array, one on a line.

use super::input::Input;
use super::replies::Replied;
use super::rows::{self, Cell, Row, COLUMNS};

/// The objects, each with the line's end before it, and a comma where another has come before.
pub fn of_replies(input: &Input, replies: &[Replied], any_before: &mut bool) -> String {
    let mut text = String::new();
    for row in rows::of_replies(input, replies) {
        text += if *any_before { ",\n" } else { "\n" };
        text += &object(&row);
        *any_before = true;
    }
    text
}

fn object(row: &Row) -> String {
    let members = COLUMNS.iter().zip(row).map(|(column, cell)| {
        let value = match cell {
            Cell::Empty => "null".to_string(),
            Cell::Number(digits) => digits.clone(),
            Cell::Text(text) => string(text),
        };
        format!("\"{column}\": {value}")
    });
    let members: Vec<String> = members.collect();
    format!("{{{}}}", members.join(", "))
}

fn string(text: &str) -> String {
    let mut quoted = String::from("\"");
    for character in text.chars() {
        match character {
            '"' | '\\' => quoted.extend(['\\', character]),
            control if control < ' ' => quoted += &format!("\\u{:04x}", u32::from(control)),
            other => quoted.push(other),
        }
    }
    quoted.push('"');
    quoted
}
