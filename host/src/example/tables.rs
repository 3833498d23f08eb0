//! What `finder list` must say of replies as csv and as json, worked out from the reference's.

use super::listing::name;
use super::words::{crossing, kind, reason, SLOTS};
use crate::commands::{
    Command, ALLOWANCE, ARC, EQUATORIAL_CONE, PARALLEL, POLAR_CONE, PRECISION, TWO_ARCS,
};
use crate::reference::Slot;
use crate::rules::{Content, Reply};

const HEADER: &str = "file,command,place,code,name,precision,allowance,lon1,lat1,lon2,lat2,lon3,lat3,lon4,lat4,z,lon_mod_half_pi,z0,radius,east,north,\
status,reason,slot,region,kind,outcome,steps,longitude,latitude,height";

/// The values of some columns, as json has them; the others are empty.
pub type Row = Vec<(&'static str, String)>;

pub fn of_replies(file: &str, replies: &[Reply]) -> Vec<Row> {
    let mut rows = Vec::new();
    let mut place = 0;
    for (before, reply) in replies.iter().enumerate() {
        let mut row = vec![
            ("file", string(file)),
            ("command", (before + 1).to_string()),
            ("place", place.to_string()),
            ("code", reply.command.code.to_string()),
            ("name", string(name(reply.command.code))),
            ("status", reply.status.to_string()),
        ];
        row.extend(operands(&reply.command));
        if reply.status != 0 {
            row.push(("reason", string(reason(reply.status))));
        }
        rows.extend(
            answers(reply)
                .into_iter()
                .map(|answer| [&row[..], &answer].concat()),
        );
        place += 1 + reply.command.row().operands();
    }
    rows
}

fn operands(command: &Command) -> Row {
    let floats: &[&str] = match command.code {
        PRECISION => &["precision"],
        ARC => &["lon1", "lat1", "lon2", "lat2"],
        EQUATORIAL_CONE => &["z", "z0", "radius"],
        POLAR_CONE => &["z", "lon_mod_half_pi", "z0", "radius"],
        PARALLEL => &["lon1", "lat1", "lon2", "lat2", "z"],
        TWO_ARCS => &[
            "lon1", "lat1", "lon2", "lat2", "lon3", "lat3", "lon4", "lat4",
        ],
        _ => &[],
    };
    let bytes: &[&str] = match command.code {
        ALLOWANCE => &["allowance"],
        EQUATORIAL_CONE => &["north"],
        POLAR_CONE => &["east", "north"],
        _ => &[],
    };
    let floats = floats
        .iter()
        .zip(command.floats)
        .map(|(name, x)| (*name, format!("{x:?}")));
    let bytes = bytes
        .iter()
        .zip(command.bytes)
        .map(|(name, byte)| (*name, byte.to_string()));
    floats.chain(bytes).collect()
}

/// What each row of a reply has more.
fn answers(reply: &Reply) -> Vec<Row> {
    match &reply.content {
        Content::Zeros => vec![Vec::new()],
        Content::Slots(slots) => {
            let slots = slots.iter().flatten().zip(SLOTS).enumerate();
            let row = |(place, (slot, region)): (usize, (&Slot, &str))| {
                let names = vec![
                    ("slot", (place + 1).to_string()),
                    ("region", string(region)),
                ];
                [names, outcome(slot, kind(slot)), steps(slot), point(slot)].concat()
            };
            slots.map(row).collect()
        }
        Content::Height(slot) => {
            let height = format!("{:?}", f64::from_bits(slot.point[0]));
            let outcome = outcome(slot, kind(slot));
            vec![[outcome, steps(slot), vec![("height", height)]].concat()]
        }
        Content::Crossing(slot) => {
            let outcome = outcome(slot, crossing(reply.command.code, slot));
            vec![[outcome, point(slot)].concat()]
        }
    }
}

fn outcome(slot: &Slot, words: &str) -> Row {
    vec![("kind", slot.kind.to_string()), ("outcome", string(words))]
}

fn steps(slot: &Slot) -> Row {
    vec![("steps", slot.steps.to_string())]
}

fn point(slot: &Slot) -> Row {
    let point = ["longitude", "latitude"].into_iter().zip(slot.point);
    let point = point.filter(|_| slot.has_point());
    point
        .map(|(name, bits)| (name, format!("{:?}", f64::from_bits(bits))))
        .collect()
}

/// No text of the example has a character to be escaped.
fn string(text: &str) -> String {
    format!("\"{text}\"")
}

fn value<'a>(row: &'a Row, column: &str) -> Option<&'a str> {
    let mut values = row.iter();
    values
        .find(|(name, _)| *name == column)
        .map(|(_, value)| value.as_str())
}

/// A text keeps its quotes where it has a comma.
pub fn csv(rows: &[Row]) -> String {
    let mut text = format!("{HEADER}\n");
    for row in rows {
        let cell = |column| match value(row, column).unwrap_or("") {
            text if text.contains(',') => text,
            text => text.trim_matches('"'),
        };
        let cells: Vec<&str> = HEADER.split(',').map(cell).collect();
        text += &(cells.join(",") + "\n");
    }
    text
}

pub fn json(rows: &[Row]) -> String {
    let object = |row: &Row| {
        let member = |column| format!("\"{column}\": {}", value(row, column).unwrap_or("null"));
        let members: Vec<String> = HEADER.split(',').map(member).collect();
        format!("{{{}}}", members.join(", "))
    };
    let objects: Vec<String> = rows.iter().map(object).collect();
    format!("[\n{}\n]\n", objects.join(",\n"))
}
