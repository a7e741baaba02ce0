//! How much of each buffer an accepted table uses.

const VARIABLE: i32 = 1;
const CHANNEL: i32 = 2;
const FROM_HOST: i32 = 1;
const TO_HOST: i32 = 2;

/// What the declarations of an accepted table add up to.
#[derive(Clone, Copy, Debug, Default, PartialEq, Eq)]
pub(crate) struct Sizes {
    pub rows: usize,
    pub cells: usize,
    pub readings: usize,
    pub outputs: usize,
}

impl Sizes {
    /// The sizes of an accepted table, its rows lent as numbers.
    pub fn of(rows: &[i32]) -> Sizes {
        let mut sizes = Sizes {
            rows: rows.len() / 4,
            ..Sizes::default()
        };
        let declarations = rows
            .chunks_exact(4)
            .take_while(|row| matches!(row[0], VARIABLE | CHANNEL));
        for row in declarations {
            match (row[0], row[2]) {
                (VARIABLE, _) => sizes.cells += row[1] as usize,
                (_, FROM_HOST) => sizes.readings += 1,
                (_, TO_HOST) => sizes.outputs += 1,
                _ => {}
            }
        }
        sizes
    }
}

#[cfg(test)]
mod tests {
    use super::Sizes;

    #[test]
    fn sizes_of_declarations() {
        let rows = [
            [1, 3, 0, 0],
            [2, 4, 0, 0],
            [2, 1, 1, 0],
            [2, 1, 2, 9],
            [1, 2, 0, 0],
            [21, 0, 0, 0],
        ];
        let sizes = Sizes {
            rows: 6,
            cells: 5,
            readings: 1,
            outputs: 1,
        };
        assert_eq!(Sizes::of(rows.as_flattened()), sizes);
        assert_eq!(Sizes::of(&[]), Sizes::default());
    }
}
