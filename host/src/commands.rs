//! Document 01's table of commands with those that document 02 adds, and commands as bytes.

use std::f64::consts::{FRAC_PI_2, TAU};
use std::fmt;

pub const END: u8 = 0x00;
pub const PRECISION: u8 = 0x01;
pub const ALLOWANCE: u8 = 0x02;
pub const ARC: u8 = 0x03;
pub const EQUATORIAL_CONE: u8 = 0x04;
pub const POLAR_CONE: u8 = 0x05;
pub const PARALLEL: u8 = 0x06;
pub const TWO_ARCS: u8 = 0x07;

/// The most bytes of a job file.
pub const MOST_BYTES: usize = 16_384;
/// The reply program's buffer, which is longer than the replies to any job file.
pub const REPLY_BUFFER: usize = 65_536;
/// The bytes of a slot: kind, steps, longitude, latitude.
pub const SLOT: usize = 18;

#[derive(Clone, Copy, Debug, PartialEq)]
pub enum Float {
    Precision,
    Lon,
    Lat,
    Z,
    Radius,
    LonModHalfPi,
}
use Float::{Lat, Lon, LonModHalfPi, Precision, Radius, Z};

impl Float {
    pub fn in_range(self, x: f64) -> bool {
        match self {
            Precision => true,
            Lon => (0.0..TAU).contains(&x),
            Lat => (-FRAC_PI_2..=FRAC_PI_2).contains(&x),
            Z => (-1.0..=1.0).contains(&x),
            Radius => 0.0 < x && x <= 2.0,
            LonModHalfPi => (0.0..FRAC_PI_2).contains(&x),
        }
    }

    /// Both ends of the range.
    pub fn ends(self) -> [f64; 2] {
        match self {
            Precision => [-f64::MAX, f64::MAX],
            Lon => [0.0, TAU],
            Lat => [-FRAC_PI_2, FRAC_PI_2],
            Z => [-1.0, 1.0],
            Radius => [0.0, 2.0],
            LonModHalfPi => [0.0, FRAC_PI_2],
        }
    }
}

/// A row of the table: the operands, which are floats and then bytes, and the width of the reply with code and status.
#[derive(Clone, Copy)]
pub struct Row {
    pub floats: &'static [Float],
    pub bytes: usize,
    pub reply: usize,
}

impl Row {
    /// The width of the operands.
    pub fn operands(&self) -> usize {
        8 * self.floats.len() + self.bytes
    }
}

/// The row of a code, if it is in the table.
pub fn row(code: u8) -> Option<Row> {
    let (floats, bytes, reply): (&[Float], _, _) = match code {
        END => (&[], 0, 0),
        PRECISION => (&[Precision], 0, 2),
        ALLOWANCE => (&[], 1, 2),
        ARC => (&[Lon, Lat, Lon, Lat], 0, 2 + 5 * SLOT),
        EQUATORIAL_CONE => (&[Z, Z, Radius], 1, 2 + 10),
        POLAR_CONE => (&[Z, LonModHalfPi, Z, Radius], 2, 2 + 10),
        PARALLEL => (&[Lon, Lat, Lon, Lat, Z], 0, 2 + 17),
        TWO_ARCS => (&[Lon, Lat, Lon, Lat, Lon, Lat, Lon, Lat], 0, 2 + 17),
        _ => return None,
    };
    Some(Row {
        floats,
        bytes,
        reply,
    })
}

/// A command of the table. Floats and bytes that its code doesn't have are zero.
#[derive(Clone, Copy, Debug)]
pub struct Command {
    pub code: u8,
    pub floats: [f64; 8],
    pub bytes: [u8; 2],
}

impl Command {
    pub fn new<const F: usize, const B: usize>(code: u8, floats: [f64; F], bytes: [u8; B]) -> Self {
        let mut command = Command {
            code,
            floats: [0.0; 8],
            bytes: [0; 2],
        };
        command.floats[..F].copy_from_slice(&floats);
        command.bytes[..B].copy_from_slice(&bytes);
        command
    }

    pub fn precision(precision: f64) -> Self {
        Command::new(PRECISION, [precision], [])
    }

    pub fn allowance(allowance: u8) -> Self {
        Command::new(ALLOWANCE, [], [allowance])
    }

    pub fn row(&self) -> Row {
        row(self.code).expect("a command's code is in the table")
    }

    /// The floats with what they are.
    pub fn operands(&self) -> impl Iterator<Item = (Float, f64)> + '_ {
        self.row().floats.iter().copied().zip(self.floats)
    }

    /// Reads the operands, which have the width that the row says.
    pub fn read(code: u8, row: Row, operands: &[u8]) -> Self {
        let mut command = Command::new(code, [], []);
        let (floats, bytes) = operands.split_at(8 * row.floats.len());
        for (float, bits) in command.floats.iter_mut().zip(floats.chunks_exact(8)) {
            *float = f64::from_le_bytes(bits.try_into().expect("a float has eight bytes"));
        }
        command.bytes[..row.bytes].copy_from_slice(bytes);
        command
    }

    pub fn write(&self, job: &mut Vec<u8>) {
        let row = self.row();
        job.push(self.code);
        for float in &self.floats[..row.floats.len()] {
            job.extend(float.to_le_bytes());
        }
        job.extend(&self.bytes[..row.bytes]);
    }
}

impl fmt::Display for Command {
    fn fmt(&self, f: &mut fmt::Formatter) -> fmt::Result {
        write!(f, "{:02x}", self.code)?;
        for (name, float) in self.operands() {
            write!(f, ", {name:?} {:#018x} ({float:?})", float.to_bits())?;
        }
        for byte in &self.bytes[..self.row().bytes] {
            write!(f, ", byte {byte}")?;
        }
        Ok(())
    }
}
