//! How long gaps are.

use crate::lent::Given;
use crate::tally::print_counts;

const GAPS: [&str; 9] = [
    "1 byte",
    "2 bytes",
    "3 bytes",
    "4 bytes",
    "5 bytes",
    "6 bytes",
    "7 bytes",
    "8 bytes",
    "cut at the end",
];
const CUT: usize = 8;

/// How many have each length, and how many would be longer but for the code's
/// end.
#[derive(Default)]
pub struct Gaps([usize; GAPS.len()]);

impl Gaps {
    pub fn count(&mut self, given: &Given, length: u64, end: u64) {
        self.0[length as usize - 1] += 1;
        self.0[CUT] += usize::from(!is_multiple(given, end));
    }

    /// Stops if one is less than these.
    pub fn print(&self, least: usize) {
        print_counts("gaps", &GAPS, &self.0, least);
    }
}

/// The place's address is a multiple of the alignment.
pub fn is_multiple(given: &Given, place: u64) -> bool {
    let address = u64::from(given.address) + place;
    address.is_multiple_of(given.alignment.into())
}
