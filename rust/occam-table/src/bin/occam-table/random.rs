//! Random choices that follow from a seed alone (splitmix64).

/// A seeded source of random numbers.
pub struct Random {
    state: u64,
}

impl Random {
    /// The source for a seed.
    pub fn new(seed: u64) -> Random {
        Random { state: seed }
    }

    /// The next number.
    fn next(&mut self) -> u64 {
        self.state = self.state.wrapping_add(0x9E37_79B9_7F4A_7C15);
        let mut mixed = self.state;
        mixed = (mixed ^ (mixed >> 30)).wrapping_mul(0xBF58_476D_1CE4_E5B9);
        mixed = (mixed ^ (mixed >> 27)).wrapping_mul(0x94D0_49BB_1331_11EB);
        mixed ^ (mixed >> 31)
    }

    /// Fills a list of choices, four to each number.
    pub fn fill(&mut self, choices: &mut [u16]) {
        for four in choices.chunks_mut(4) {
            let bytes = self.next();
            for (at, choice) in four.iter_mut().enumerate() {
                *choice = (bytes >> (16 * at)) as u16;
            }
        }
    }
}
