//! The reference with document 01's angle functions and document 02's changes and nothing else: for timing.

include!(concat!(env!("OUT_DIR"), "/plain_reference.rs"));

#[path = "rules/two_arcs.rs"]
pub mod two_arcs;

pub use special_points_finder::*;
pub use sph_geom::coo3d::*;
