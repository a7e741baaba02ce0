//! The number form of tables and sheets: base ten, no leading zeros, no plus, no `-0`.

/// Reads one whole number of the table's form; `None` if the bytes are not one.
pub fn read_number(bytes: &[u8]) -> Option<i32> {
    if bytes == b"0" {
        return Some(0);
    }
    match bytes.split_first()? {
        (b'-', digits) => i32::try_from(-read_digits(digits)?).ok(),
        _ => i32::try_from(read_digits(bytes)?).ok(),
    }
}

/// Reads digits of which the first is not 0, up to ten of them (more never fit).
fn read_digits(digits: &[u8]) -> Option<i64> {
    if digits.len() > 10 || !matches!(digits.first()?, b'1'..=b'9') {
        return None;
    }
    digits.iter().try_fold(0i64, |value, digit| match digit {
        b'0'..=b'9' => Some(value * 10 + i64::from(digit - b'0')),
        _ => None,
    })
}

#[cfg(test)]
mod tests {
    use super::read_number;

    #[test]
    fn numbers_of_the_form() {
        for number in [0, 1, -1, 9, 10, 120, -7, i32::MAX, i32::MIN] {
            assert_eq!(read_number(number.to_string().as_bytes()), Some(number));
        }
    }

    #[test]
    fn not_of_the_form() {
        for text in [
            "",
            "-",
            "00",
            "-0",
            "+1",
            "01",
            "-01",
            " 1",
            "1 ",
            "1\r",
            "0\r",
            "1-",
            "--1",
            "0x1",
            "1.0",
            "2147483648",
            "-2147483649",
            "99999999999999999999",
            "4294967296",
            "a",
            "1\0",
            "\u{2212}1",
        ] {
            assert_eq!(read_number(text.as_bytes()), None, "{text:?}");
        }
    }
}
