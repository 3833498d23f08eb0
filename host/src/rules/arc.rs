//! The reply to an arc.
//!
//! Document 01: "The Rust's list is the slots of kind 3 in order, for each cap only the first of two. It panics at status 10, kind 5, and
//! kind 4 in a cap; elsewhere kinds 0, 1, 2, 4 are its None." With document 02, ask 7, kinds 6 and 7 at the equator, too, are its None.

use super::reply::NO_KIND;
use super::{Content, Reply};
use crate::commands::Command;
use crate::pattern;
use crate::reference::{
    arc_special_points, caught, intersect_parallel, second_try, watch, Coo3D, Panic, Slot, Vec3,
    Watched, EQUATOR, FOUND_BY_HALVING, NONE_BY_HALVING, TRANSITION_Z,
};

/// Longitudes and latitudes, as patterns.
type List = Vec<[u64; 2]>;

const STATUS_10: u8 = 10;

pub fn reply(command: &Command, (precision, allowance): (f64, u8)) -> Reply {
    let [p1, p2] = ends(command);
    let watched = watch(|| {
        let points = arc_special_points(&p1, &p2, precision, allowance);
        let patterns = points
            .iter()
            .map(|point| [point.lon, point.lat].map(pattern));
        patterns.collect()
    });
    let panic = watched.result.as_ref().err().copied();
    let ends = lower_first(command);
    if panic.is_some() && split_fails(&ends) {
        return Reply {
            panic,
            ..Reply::with_status(*command, STATUS_10)
        };
    }
    let mut slots = slots(&watched, &ends);
    let piece = watched.work.in_equator;
    if let (Some(slot @ Slot { kind: 2, .. }), Some(ends)) = (&mut slots[EQUATOR], &piece) {
        try_again(slot, ends);
    }
    Reply {
        content: Content::Slots(slots),
        panic,
        whole_turns: watched.work.whole_turns,
        crossed: watched.work.crossed,
        piece,
        ..Reply::with_status(*command, 0)
    }
}

/// Both ends of an arc or of a parallel's arc.
pub fn ends(command: &Command) -> [Coo3D; 2] {
    let [lon1, lat1, lon2, lat2, ..] = command.floats;
    [
        Coo3D::from_sph_coo(lon1, lat1),
        Coo3D::from_sph_coo(lon2, lat2),
    ]
}

/// The same ends in the source's order.
pub fn lower_first(command: &Command) -> [Coo3D; 2] {
    let [p1, p2] = ends(command);
    if p1.z() > p2.z() {
        [p2, p1]
    } else {
        [p1, p2]
    }
}

/// Whether the reference panics at a crossing with −T or T that splits the arc. All of them are tried here, while an arc from cap to cap
/// has a walk in the south before the reference comes to the second.
fn split_fails([low, high]: &[Coo3D; 2]) -> bool {
    let crossing = |z| watch(|| intersect_parallel(low, high, z)).result;
    let fails = |z| matches!(crossing(z), Err(Panic::Unreachable));
    [-TRANSITION_Z, TRANSITION_Z].into_iter().any(fails)
}

/// Document 02, ask 7: what stands "in slot three, where the walk ran and the height was rejected (kind 2)". The steps stay. What is crossed here is not
/// counted, as it is no work of the reference's.
fn try_again(slot: &mut Slot, ends: &[Coo3D; 2]) {
    slot.kind = match caught(|| second_try::point(ends)) {
        Ok(Some(point)) => {
            slot.point = [point.lon, point.lat].map(pattern);
            FOUND_BY_HALVING
        }
        Ok(None) | Err(Panic::Unreachable) => NONE_BY_HALVING,
        Err(_) => NO_KIND,
    };
}

/// The slots that the reference has worked out: all, or up to the one at which it panics and those of regions that the arc doesn't reach. Its list,
/// if it gives one, has shown that it has found nothing at those of kind 2.
fn slots(watched: &Watched<List>, ends: &[Coo3D; 2]) -> [Option<Slot>; 5] {
    let mut work = watched.work.clone();
    let mut last = work.order[4];
    match &watched.result {
        Ok(result) => assert_eq!(*result, list(&work.slots), "the slots are not its list"),
        Err(panic) => {
            last = work.at;
            work.slots[last].kind = match (panic, work.slots[last].kind) {
                (Panic::Unreachable, 2) => 5,
                (Panic::UnwrapOfNone, 2) if last != EQUATOR => 4,
                _ => NO_KIND,
            };
        }
    }
    let mut come_to = true;
    let mut slots = [None; 5];
    for place in work.order {
        if come_to || !is_reached(place, ends) {
            slots[place] = Some(work.slots[place]);
        }
        come_to &= place != last;
    }
    slots
}

/// Whether the arc has a part in the region of the slot at this place, as the reference tells the regions by the ends' heights.
fn is_reached(place: usize, [low, high]: &[Coo3D; 2]) -> bool {
    let (south_only, north_only) = (high.z() <= -TRANSITION_Z, TRANSITION_Z <= low.z());
    match place {
        0 | 1 => south_only || low.z() < -TRANSITION_Z,
        EQUATOR => !south_only && !north_only,
        _ => north_only || TRANSITION_Z < high.z(),
    }
}

fn list(slots: &[Slot; 5]) -> List {
    let regions = [&slots[..2], &slots[2..3], &slots[3..]];
    let found = regions
        .iter()
        .filter_map(|slots| slots.iter().find(|slot| slot.kind == 3));
    found.map(|slot| slot.point).collect()
}
