//! The numbered refusals (1 to 11, 12 and 13 of request 02, 14 of request 05), each with its place.

use std::fmt;

/// One of the numbered refusals with its place.
#[derive(Clone, Copy, Debug, PartialEq, Eq, Hash)]
pub struct Refusal {
    pub number: u8,
    pub place: u32,
}

impl Refusal {
    /// The refusal of this number at this place (a line or a row).
    pub fn new(number: u8, place: usize) -> Refusal {
        let place = u32::try_from(place).unwrap_or(u32::MAX);
        Refusal { number, place }
    }
}

impl fmt::Display for Refusal {
    fn fmt(&self, out: &mut fmt::Formatter<'_>) -> fmt::Result {
        write!(out, "refused,{},{},0", self.number, self.place)
    }
}
