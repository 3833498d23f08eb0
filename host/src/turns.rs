//! Document 02, ask 2: how often a longitude of the reference's came to 2π, and so to 0; and how often a point's is −0, which stays.

use crate::outcomes::print_row;
use crate::reference::{LONGITUDES, SIZES_OF_Y};
use crate::rules::Reply;

#[derive(Default)]
pub struct Turns {
    /// By function, and by the size of the vector's y.
    whole: [[u64; SIZES_OF_Y.len() + 1]; LONGITUDES.len()],
    minus_zeros: u64,
}

impl Turns {
    pub fn count(&mut self, reply: &Reply) {
        let counts = self.whole.iter_mut().flatten();
        for (count, seen) in counts.zip(reply.whole_turns.iter().flatten()) {
            *count += u64::from(*seen);
        }
        let longitudes = reply.longitudes().into_iter();
        let minus_zeros = longitudes.filter(|lon| *lon == 0.0 && lon.is_sign_negative());
        self.minus_zeros += minus_zeros.count() as u64;
    }

    /// Whole turns of each function, whatever the size, and the −0.
    fn totals(&self) -> [u64; LONGITUDES.len() + 1] {
        let [a, b] = self.whole.map(|counts| counts.iter().sum());
        [a, b, self.minus_zeros]
    }

    /// The least of these totals.
    pub fn least(&self) -> u64 {
        self.totals().into_iter().min().unwrap_or(0)
    }

    /// The least of those that a reply adds to.
    pub fn least_of(&self, reply: &Reply) -> u64 {
        let mut alone = Turns::default();
        alone.count(reply);
        let totals = self.totals().into_iter().zip(alone.totals());
        let added_to = totals.filter(|(_, added)| *added > 0);
        added_to.map(|(total, _)| total).min().unwrap_or(u64::MAX)
    }

    pub fn print(&self) {
        let [_, tiny] = SIZES_OF_Y.map(|size| format!("y to {size:e}"));
        print_row(
            "a longitude of a whole turn, given as 0",
            ["y subnormal", &tiny, "y above"],
        );
        for (function, counts) in LONGITUDES.iter().zip(self.whole) {
            print_row(function, counts);
        }
        print_row("a point's longitude of −0, kept", [self.minus_zeros]);
    }

    /// What is due and was never seen.
    pub fn missing(&self) -> Vec<String> {
        let functions = LONGITUDES.iter().zip(&self.whole);
        let unseen = functions.filter(|(_, counts)| counts.contains(&0));
        let whole = unseen.map(|(function, _)| {
            format!("a longitude of a whole turn in {function}, with y of every size")
        });
        let minus_zero = (self.minus_zeros == 0).then(|| "a longitude of −0".to_string());
        whole.chain(minus_zero).collect()
    }
}
