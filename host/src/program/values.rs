//! The operands of a command, as values and in words.

use super::names::{self, Kind, Operand};
use super::numbers;

pub enum Value {
    /// Its bits.
    Float(u64),
    Byte(u8),
}

/// What the angles of a listing are in.
#[derive(Clone, Copy, PartialEq)]
pub enum Angles {
    Radians,
    Degrees,
}

impl Angles {
    pub fn shown(self, bits: u64) -> String {
        match self {
            Angles::Radians => numbers::shown(bits),
            Angles::Degrees => numbers::in_degrees(bits),
        }
    }
}

/// The operands of a command, from the bytes that begin with them.
pub fn of_command(code: u8, mut bytes: &[u8]) -> Vec<(Operand, Value)> {
    let mut value = |operand: Operand| {
        let value = match operand.kind {
            Kind::Byte => Value::Byte(bytes[0]),
            _ => Value::Float(u64::from_le_bytes(
                bytes[..8].try_into().expect("a float has eight bytes"),
            )),
        };
        bytes = match value {
            Value::Byte(_) => &bytes[1..],
            Value::Float(_) => &bytes[8..],
        };
        (operand, value)
    };
    names::of_code(code).operands().map(&mut value).collect()
}

/// A command as a line of the text form, from its code and the bytes that begin with its operands.
pub fn line(code: u8, bytes: &[u8], angles: Angles) -> String {
    let mut line = names::of_code(code).name.to_string();
    for (operand, value) in of_command(code, bytes) {
        line.push(' ');
        line += &word(&operand, &value, angles);
    }
    line
}

fn word(operand: &Operand, value: &Value, angles: Angles) -> String {
    match (value, operand.flag()) {
        (Value::Float(bits), _) if operand.kind == Kind::Angle => angles.shown(*bits),
        (Value::Float(bits), _) => numbers::shown(*bits),
        (Value::Byte(1), Some((one, _))) => one.to_string(),
        (Value::Byte(0), Some((_, zero))) => zero.to_string(),
        (Value::Byte(byte), _) => byte.to_string(),
    }
}
