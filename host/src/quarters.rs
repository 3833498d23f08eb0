//! Document 02, ask 8: which quarters, and which places in them, the ends of arcs in a cap were seen at; and which heights at the transition, where an arc may be of one
//! piece at the equator or not.

use crate::commands::ARC;
use crate::outcomes::print_row;
use crate::random::moved;
use crate::reference::{LonLatT, Vec3, TRANSITION_Z};
use crate::rules::{lower_first, Reply};
use std::f64::consts::FRAC_PI_2;

const PLACES: [&str; 3] = ["at its start", "last float", "within"];
const HEIGHTS: [&str; 4] = ["-T", "above -T", "below T", "T"];

#[derive(Default)]
pub struct Quarters {
    /// By quarter and place.
    places: [[u64; PLACES.len()]; 4],
    heights: [u64; HEIGHTS.len()],
    minus_zeros: u64,
}

impl Quarters {
    pub fn count(&mut self, reply: &Reply) {
        if reply.command.code != ARC || reply.status != 0 {
            return;
        }
        for end in lower_first(&reply.command) {
            self.count_height(end.z());
            // At T itself an end may be one of a piece at the equator.
            if end.z().abs() > TRANSITION_Z {
                self.count_longitude(end.lon());
            }
        }
    }

    fn count_height(&mut self, z: f64) {
        let inside = moved(TRANSITION_Z, -1);
        let heights = [-TRANSITION_Z, -inside, inside, TRANSITION_Z];
        for (count, height) in self.heights.iter_mut().zip(heights) {
            *count += u64::from(z == height);
        }
    }

    fn count_longitude(&mut self, lon: f64) {
        let place = if lon % FRAC_PI_2 == 0.0 {
            0
        } else if moved(lon, 1) % FRAC_PI_2 == 0.0 {
            1
        } else {
            2
        };
        // The source's own quotient.
        self.places[(lon / FRAC_PI_2) as usize][place] += 1;
        self.minus_zeros += u64::from(lon == 0.0 && lon.is_sign_negative());
    }

    fn counts(&self) -> Vec<u64> {
        let places = self.places.iter().flatten();
        let others = self.heights.iter().chain([&self.minus_zeros]);
        places.chain(others).copied().collect()
    }

    /// How often that was seen which was seen least.
    pub fn least(&self) -> u64 {
        self.counts().into_iter().min().unwrap_or(0)
    }

    /// The same of what a reply adds to.
    pub fn least_of(&self, reply: &Reply) -> u64 {
        let mut alone = Quarters::default();
        alone.count(reply);
        let counts = self.counts().into_iter().zip(alone.counts());
        let added_to = counts.filter(|(_, added)| *added > 0);
        added_to.map(|(count, _)| count).min().unwrap_or(u64::MAX)
    }

    pub fn print(&self) {
        print_row("ends in a cap, by their longitude", PLACES);
        for (quarter, counts) in self.places.iter().enumerate() {
            print_row(&format!("quarter {quarter}"), *counts);
        }
        print_row("ends in a cap at longitude −0", [self.minus_zeros]);
        print_row("ends about the transition, by their height", HEIGHTS);
        print_row("", self.heights);
    }

    /// What is due and was never seen.
    pub fn missing(&self) -> Vec<String> {
        let places = (0..4).flat_map(|quarter| {
            PLACES.map(|place| format!("an end in a cap in quarter {quarter}, {place}"))
        });
        let heights = HEIGHTS.map(|height| format!("an end at the height {height}"));
        let minus_zero = "an end in a cap at longitude −0".to_string();
        let names = places.chain(heights).chain([minus_zero]);
        let unseen = names.zip(self.counts()).filter(|(_, count)| *count == 0);
        unseen.map(|(name, _)| name).collect()
    }
}
