//! Random numbers, choices and damage to bytes, from a seed alone.

/// Random numbers that follow from the seed alone (splitmix64).
pub struct Random(pub u64);

impl Random {
    /// Random numbers that follow from these bytes.
    pub fn of(bytes: &[u8]) -> Random {
        let mixed = bytes.iter().fold(0xCBF2_9CE4_8422_2325, |mixed, &byte| {
            (mixed ^ u64::from(byte)).wrapping_mul(0x0100_0000_01B3)
        });
        Random(mixed)
    }

    /// The next number.
    fn next(&mut self) -> u64 {
        self.0 = self.0.wrapping_add(0x9E37_79B9_7F4A_7C15);
        let mut mixed = self.0;
        mixed = (mixed ^ (mixed >> 30)).wrapping_mul(0xBF58_476D_1CE4_E5B9);
        mixed = (mixed ^ (mixed >> 27)).wrapping_mul(0x94D0_49BB_1331_11EB);
        mixed ^ (mixed >> 31)
    }

    /// A number below `bound`.
    pub fn below(&mut self, bound: usize) -> usize {
        (self.next() % bound as u64) as usize
    }

    /// One of the items.
    pub fn pick<T: Copy>(&mut self, items: &[T]) -> T {
        items[self.below(items.len())]
    }

    /// Some choices.
    pub fn choices(&mut self) -> Vec<u16> {
        let count = self.pick(&[0, 1, 5, 40, 300]);
        let bound = self.pick(&[2, 7, 65_536]);
        (0..count).map(|_| self.below(bound) as u16).collect()
    }

    /// Changes, adds or takes out a byte, mostly one that tables and sheets are made of.
    pub fn damage(&mut self, bytes: &mut Vec<u8>) {
        self.damage_with(bytes, b"0123456789-,\n");
    }

    /// The same with a byte that texts are made of.
    pub fn damage_text(&mut self, bytes: &mut Vec<u8>) {
        self.damage_with(bytes, b"  \n\n()[]:=<>+-*/?!&012789abnx_NTRSEQ");
    }

    /// Changes, adds or takes out a byte, mostly one of these.
    fn damage_with(&mut self, bytes: &mut Vec<u8>, mostly: &[u8]) {
        let byte = match self.below(8) {
            0 => self.next() as u8,
            _ => self.pick(mostly),
        };
        let place = self.below(bytes.len() + 1);
        match self.below(3) {
            0 => bytes.insert(place, byte),
            1 if place < bytes.len() => bytes[place] = byte,
            _ if place < bytes.len() => {
                bytes.remove(place);
            }
            _ => bytes.push(byte),
        }
    }

    /// Puts another number in a field of some line.
    pub fn change_field(&mut self, bytes: &mut Vec<u8>) {
        let is_stop = |&place: &usize| matches!(bytes[place], b',' | b'\n');
        let stops: Vec<usize> = (0..bytes.len()).filter(is_stop).collect();
        if stops.len() < 2 {
            return;
        }
        let field = self.below(stops.len() - 1);
        let number = match self.below(3) {
            0 => self.next() as i32,
            1 => self.below(45) as i32 - 1,
            _ => self.below(stops.len() / 4 + 2) as i32,
        };
        let text = number.to_string().into_bytes();
        bytes.splice(stops[field] + 1..stops[field + 1], text);
    }
}
