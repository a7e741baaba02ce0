//! Random numbers, odd numbers and damage, from fixed seeds.
#![allow(dead_code)]

/// Random numbers that follow from the seed alone (splitmix64).
pub struct Random(pub u64);

impl Random {
    /// The next number.
    pub fn next(&mut self) -> u64 {
        self.0 = self.0.wrapping_add(0x9E37_79B9_7F4A_7C15);
        let mut mixed = self.0;
        mixed = (mixed ^ (mixed >> 30)).wrapping_mul(0xBF58_476D_1CE4_E5B9);
        mixed = (mixed ^ (mixed >> 27)).wrapping_mul(0x94D0_49BB_1331_11EB);
        mixed ^ (mixed >> 31)
    }

    /// A number below `bound`.
    pub fn below(&mut self, bound: usize) -> usize {
        (self.next() % bound as u64) as usize
    }

    /// One of the items.
    pub fn pick<T: Copy>(&mut self, items: &[T]) -> T {
        items[self.below(items.len())]
    }

    /// A whole number: at an edge, small, of any size, or any at all.
    pub fn whole(&mut self) -> i32 {
        const EDGES: [i32; 14] = [
            i32::MIN,
            i32::MIN + 1,
            -65_536,
            -46_341,
            -46_340,
            -2,
            -1,
            0,
            1,
            2,
            46_340,
            46_341,
            65_536,
            i32::MAX,
        ];
        match self.below(4) {
            0 => self.pick(&EDGES),
            1 => self.below(21) as i32 - 10,
            2 => (self.next() as i32) >> self.below(32),
            _ => self.next() as i32,
        }
    }
}

/// Changes, adds or takes out some bytes, with those that tables and sheets are made of.
pub fn damage(random: &mut Random, bytes: &mut Vec<u8>) {
    for _ in 0..=random.below(3) {
        let byte = match random.below(8) {
            0 => random.next() as u8,
            _ => random.pick(b"0123456789-,\n\r+ k:/"),
        };
        let place = random.below(bytes.len() + 1);
        match random.below(4) {
            0 => bytes.insert(place, byte),
            1 if place < bytes.len() => bytes[place] = byte,
            2 if place < bytes.len() => {
                bytes.remove(place);
            }
            _ if random.below(4) == 0 => bytes.truncate(place),
            _ => {
                let end = bytes.len().min(place + random.below(12));
                bytes.extend_from_within(place..end);
            }
        }
    }
}
