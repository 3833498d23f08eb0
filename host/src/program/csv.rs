//! Rows as RFC 4180 has them, with LF at the end of each.

use super::input::Input;
use super::replies::Replied;
use super::rows::{self, Cell, COLUMNS};

pub fn header() -> String {
    COLUMNS.join(",") + "\n"
}

pub fn of_replies(input: &Input, replies: &[Replied]) -> String {
    let mut text = String::new();
    for row in rows::of_replies(input, replies) {
        let cells: Vec<String> = row.iter().map(cell).collect();
        text += &cells.join(",");
        text.push('\n');
    }
    text
}

fn cell(cell: &Cell) -> String {
    match cell {
        Cell::Empty => String::new(),
        Cell::Text(text) if text.contains([',', '"', '\r', '\n']) => {
            format!("\"{}\"", text.replace('"', "\"\""))
        }
        Cell::Number(text) | Cell::Text(text) => text.clone(),
    }
}
