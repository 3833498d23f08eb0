//! The example: its text, its listings as the reference has them, and its reply file built again from the tables.

use crate::process::{finder, repository};
use std::collections::HashMap;
use std::fs;

const TEXT: &str = "examples/field_of_view.txt";

fn stored(end: &str) -> Vec<u8> {
    fs::read(
        repository()
            .join("examples/field_of_view.")
            .to_string_lossy()
            .into_owned()
            + end,
    )
    .expect("it is there")
}

#[test]
fn bytes() {
    let job = stored("job");
    assert_eq!(finder(&["write", TEXT], b"").done(), job);
    assert_eq!(finder(&["run", TEXT], b"").done(), stored("reply"));
    let shown = finder(&["show"], &job).done();
    assert_eq!(finder(&["write"], &shown).done(), job);
}

#[test]
fn listings() {
    for (format, end) in [("words", "list"), ("csv", "csv"), ("json", "json")] {
        let listed = finder(&["list", "--format", format, TEXT], b"").done();
        assert_eq!(String::from_utf8(listed), String::from_utf8(stored(end)));
    }
}

/// The values of a row that are not empty.
type Row = HashMap<String, String>;

/// The cells of a line, of which some are quoted.
fn cells(line: &str) -> Vec<String> {
    let mut cells = vec![String::new()];
    let mut quoted = false;
    for character in line.chars() {
        match character {
            '"' => quoted = !quoted,
            ',' if !quoted => cells.push(String::new()),
            other => cells.last_mut().expect("there is one").push(other),
        }
    }
    cells
}

fn rows_of_csv(csv: &str) -> Vec<Row> {
    let mut lines = csv.lines().map(cells);
    let columns = lines.next().expect("there is a header");
    let row = |cells: Vec<String>| {
        assert_eq!(cells.len(), columns.len());
        let row = columns.iter().cloned().zip(cells);
        row.filter(|(_, cell)| !cell.is_empty()).collect()
    };
    lines.map(row).collect()
}

fn rows_of_json(json: &str) -> Vec<Row> {
    let objects = json
        .strip_prefix("[\n")
        .and_then(|rest| rest.strip_suffix("\n]\n"))
        .expect("it is an array");
    let object = |line: &str| {
        let line = line.trim_end_matches(',');
        let members = line
            .strip_prefix('{')
            .and_then(|rest| rest.strip_suffix('}'))
            .expect("it is an object");
        let members = members
            .split(", \"")
            .map(|member| member.split_once("\": ").expect("it has a value"));
        let members = members.map(|(key, value)| {
            (
                key.trim_matches('"').to_string(),
                value.trim_matches('"').to_string(),
            )
        });
        members.filter(|(_, value)| value != "null").collect()
    };
    objects.lines().map(object).collect()
}

fn byte(row: &Row, column: &str) -> u8 {
    row.get(column)
        .map_or(0, |digits| digits.parse().expect("it is a byte"))
}

fn float(row: &Row, column: &str) -> [u8; 8] {
    let float = row
        .get(column)
        .map_or(0.0, |digits| digits.parse().expect("it is a float"));
    f64::to_le_bytes(float)
}

/// The bytes of replies, by document 01's table and document 02's code 07.
fn replies(rows: &[Row]) -> Vec<u8> {
    let mut replies = Vec::new();
    for row in rows {
        let (code, status) = (byte(row, "code"), byte(row, "status"));
        if byte(row, "slot") <= 1 {
            replies.extend([code, status]);
        }
        let (kind, steps) = (byte(row, "kind"), byte(row, "steps"));
        let [lon, lat, z] = ["longitude", "latitude", "height"].map(|column| float(row, column));
        match code {
            3 if status != 0 => replies.extend([0; 90]),
            3 => replies.extend([&[kind, steps][..], &lon, &lat].concat()),
            4 | 5 => replies.extend([&[kind, steps][..], &z].concat()),
            6 | 7 => replies.extend([&[kind][..], &lon, &lat].concat()),
            _ => {}
        }
    }
    replies
}

/// The bytes of commands.
fn commands(rows: &[Row]) -> Vec<u8> {
    let mut job = Vec::new();
    for row in rows.iter().filter(|row| byte(row, "slot") <= 1) {
        assert_eq!(row["place"], job.len().to_string());
        let (floats, bytes): (&[&str], &[&str]) = match byte(row, "code") {
            1 => (&["precision"], &[]),
            2 => (&[], &["allowance"]),
            3 => (&["lon1", "lat1", "lon2", "lat2"], &[]),
            4 => (&["z", "z0", "radius"], &["north"]),
            5 => (
                &["z", "lon_mod_half_pi", "z0", "radius"],
                &["east", "north"],
            ),
            6 => (&["lon1", "lat1", "lon2", "lat2", "z"], &[]),
            _ => (
                &[
                    "lon1", "lat1", "lon2", "lat2", "lon3", "lat3", "lon4", "lat4",
                ],
                &[],
            ),
        };
        job.push(byte(row, "code"));
        job.extend(floats.iter().flat_map(|column| float(row, column)));
        job.extend(bytes.iter().map(|column| byte(row, column)));
    }
    job.push(0);
    job
}

#[test]
fn tables_give_back_every_bit() {
    let csv = rows_of_csv(&finder(&["list", "--format", "csv", TEXT], b"").text());
    let json = rows_of_json(&finder(&["list", "--format", "json", TEXT], b"").text());
    for rows in [csv, json] {
        assert_eq!(rows.len(), 2 + 9 * 5 + 6);
        assert_eq!(replies(&rows), stored("reply"));
        assert_eq!(commands(&rows), stored("job"));
    }
}
