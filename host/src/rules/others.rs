//! The replies to cones, parallels and two arcs.

use super::arc::ends;
use super::reply::NO_KIND;
use super::{Content, Reply};
use crate::commands::Command;
use crate::pattern;
use crate::reference::{
    cone_special_point_in_eqr, cone_special_point_in_pc, count_arc, intersect_parallel, two_arcs,
    watch, LonLat, Panic, Slot, Watched, PARALLELS,
};

const STATUS_12: u8 = 12;

pub fn equatorial_cone(command: &Command, (precision, allowance): (f64, u8)) -> Reply {
    let [z, z0, radius, ..] = command.floats;
    let north = command.bytes[0] == 1;
    let cone = watch(|| cone_special_point_in_eqr(z, z0, radius, north, precision, allowance));
    height(command, &cone)
}

pub fn polar_cone(command: &Command, (precision, allowance): (f64, u8)) -> Reply {
    let [z, lon, z0, radius, ..] = command.floats;
    let [east, north] = command.bytes.map(|byte| byte == 1);
    let cone =
        watch(|| cone_special_point_in_pc(z, lon, z0, radius, east, north, precision, allowance));
    height(command, &cone)
}

fn height(command: &Command, cone: &Watched<Option<f64>>) -> Reply {
    let walk = cone.work.slots[0];
    let (kind, z) = match (&cone.result, walk.kind) {
        (Ok(Some(z)), 2) => (3, pattern(*z)),
        (Ok(None), 2) => (2, 0),
        _ => (NO_KIND, 0),
    };
    Reply {
        content: Content::Height(Slot {
            kind,
            steps: walk.steps,
            point: [z, 0],
        }),
        panic: cone.result.as_ref().err().copied(),
        ..Reply::with_status(*command, 0)
    }
}

pub fn parallel(command: &Command) -> Reply {
    let [p1, p2] = ends(command);
    let z = command.floats[4];
    let crossing = watch(|| {
        let vector = intersect_parallel(&p1, &p2, z);
        count_arc(PARALLELS);
        vector.map(|vector| vector.lonlat())
    });
    let (kind, point) = match &crossing.result {
        Ok(Some(point)) => found(point),
        Ok(None) => (4, [0; 2]),
        Err(Panic::Unreachable) => (5, [0; 2]),
        Err(_) => (NO_KIND, [0; 2]),
    };
    Reply {
        panic: crossing.result.as_ref().err().copied(),
        ..crossed(command, kind, point, &crossing)
    }
}

/// Document 02, ask 3.
pub fn two_arcs(command: &Command) -> Reply {
    let crossing = watch(|| two_arcs::crossing(&command.floats));
    let (kind, point) = match &crossing.result {
        Ok(Ok(Some(point))) => found(point),
        Ok(Ok(None)) => (5, [0; 2]),
        Ok(Err(two_arcs::NoNorm)) => return Reply::with_status(*command, STATUS_12),
        Err(_) => (NO_KIND, [0; 2]),
    };
    crossed(command, kind, point, &crossing)
}

fn found(point: &LonLat) -> (u8, [u64; 2]) {
    (3, [point.lon, point.lat].map(pattern))
}

fn crossed<T>(command: &Command, kind: u8, point: [u64; 2], watched: &Watched<T>) -> Reply {
    Reply {
        content: Content::Crossing(Slot {
            kind,
            steps: 0,
            point,
        }),
        whole_turns: watched.work.whole_turns,
        crossed: watched.work.crossed,
        ..Reply::with_status(*command, 0)
    }
}
