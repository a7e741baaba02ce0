//! Numbers: the reading of a field and the printing of a number.

mod common;

use common::{damage, Random};
use reference::number::read_number;

const FIELDS: usize = 400_000;

/// A number of the form, one that is damaged, or loose digits behind a sign.
fn some_field(random: &mut Random) -> Vec<u8> {
    let mut field = random.whole().to_string().into_bytes();
    match random.below(3) {
        0 => {}
        1 => damage(random, &mut field),
        _ => {
            field = random.pick(&["", "", "-", "0", "-0"]).into();
            let digits = random.below(14);
            field.extend((0..digits).map(|_| random.pick(b"0123456789")));
        }
    }
    field
}

#[test]
fn a_field_is_read_alike() {
    let mut random = Random(1);
    let mut read = 0;
    for _ in 0..FIELDS {
        let field = some_field(&mut random);
        let mut out = vec![-77; random.below(4)];
        let mut left = out.clone();
        let told = match (read_number(&field), left.first_mut()) {
            (Some(number), Some(first)) => {
                *first = number;
                1
            }
            _ => 0,
        };
        read += told;
        let answer = leaf_tests::number(&field, &mut out);
        let text = String::from_utf8_lossy(&field);
        assert_eq!((answer, &out), (told, &left), "{text:?}");
    }
    assert!((100_000..300_000).contains(&read), "{read} numbers read");
}

#[test]
fn a_number_is_printed_alike() {
    let mut random = Random(2);
    for _ in 0..FIELDS {
        let number = random.whole();
        let text = number.to_string().into_bytes();
        assert_eq!(read_number(&text), Some(number));
        let mut out = vec![b'#'; random.below(30)];
        let mut left = out.clone();
        let mut length = 0;
        if out.len() >= 11 {
            length = text.len();
            left[..length].copy_from_slice(&text);
        }
        let answer = leaf_tests::printed(number, &mut out);
        assert_eq!((answer, &out), (length, &left), "{number}");
    }
}
