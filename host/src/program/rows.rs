//! Replies as rows of a table, one for each slot, which csv and json share.

use super::input::Input;
use super::names;
use super::numbers;
use super::replies::{Point, Replied, Slot};
use super::values::{self, Value};

pub const COLUMNS: [&str; 31] = [
    "file",
    "command",
    "place",
    "code",
    "name",
    "precision",
    "allowance",
    "lon1",
    "lat1",
    "lon2",
    "lat2",
    "lon3",
    "lat3",
    "lon4",
    "lat4",
    "z",
    "lon_mod_half_pi",
    "z0",
    "radius",
    "east",
    "north",
    "status",
    "reason",
    "slot",
    "region",
    "kind",
    "outcome",
    "steps",
    "longitude",
    "latitude",
    "height",
];

#[derive(Clone)]
pub enum Cell {
    Empty,
    /// As its digits.
    Number(String),
    Text(String),
}

pub type Row = [Cell; COLUMNS.len()];

pub fn of_replies(input: &Input, replies: &[Replied]) -> Vec<Row> {
    let mut rows = Vec::new();
    for (replied, number) in replies.iter().zip(1..) {
        let start = start(input, replied, number);
        let slots = replied.slots();
        if slots.is_empty() {
            rows.push(start.clone());
        }
        for (slot, number) in slots.iter().zip(1..) {
            let mut row = start.clone();
            set_slot(&mut row, replied.command.code, slot, number);
            rows.push(row);
        }
    }
    rows
}

/// What all rows of a command share.
fn start(input: &Input, replied: &Replied, number: usize) -> Row {
    let mut row = [const { Cell::Empty }; COLUMNS.len()];
    let code = replied.command.code;
    set(&mut row, "file", text(&input.name));
    set(&mut row, "command", whole(number));
    set(&mut row, "place", whole(replied.place));
    set(&mut row, "code", whole(code));
    set(&mut row, "name", text(names::of_code(code).name));
    for (operand, value) in values::of_command(code, &input.job[replied.place + 1..]) {
        let cell = match value {
            Value::Float(bits) => float(bits),
            Value::Byte(byte) => whole(byte),
        };
        set(&mut row, operand.column, cell);
    }
    let status = replied.status();
    set(&mut row, "status", whole(status));
    if status != 0 {
        set(&mut row, "reason", text(names::reason(status)));
    }
    row
}

fn set_slot(row: &mut Row, code: u8, slot: &Slot, number: usize) {
    if let Some(name) = slot.name {
        set(row, "slot", whole(number));
        set(row, "region", text(name));
    }
    set(row, "kind", whole(slot.kind));
    set(row, "outcome", text(names::outcome(code, slot.kind)));
    if let Some(steps) = slot.steps {
        set(row, "steps", whole(steps));
    }
    match slot.point {
        Some(Point::LonLat(lon, lat)) => {
            set(row, "longitude", float(lon.to_bits()));
            set(row, "latitude", float(lat.to_bits()));
        }
        Some(Point::Height(z)) => set(row, "height", float(z.to_bits())),
        None => {}
    }
}

fn set(row: &mut Row, column: &str, cell: Cell) {
    let place = COLUMNS.iter().position(|it| *it == column);
    row[place.expect("the table has this column")] = cell;
}

fn text(text: &str) -> Cell {
    Cell::Text(text.to_string())
}

fn whole(number: impl ToString) -> Cell {
    Cell::Number(number.to_string())
}

/// With a point or an exponent: some readers of JSON take `-0` for a whole number, which has no sign.
fn float(bits: u64) -> Cell {
    let float = f64::from_bits(bits);
    match float.is_finite() {
        true => Cell::Number(format!("{float:?}")),
        false => Cell::Text(numbers::shown(bits)),
    }
}
