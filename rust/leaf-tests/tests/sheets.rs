//! Sheets: the verdict and the readings, of sheets whole and damaged.

mod common;

use common::{damage, Random};
use reference::sheet::{first_line, readings_of_bytes};

const SHEETS: usize = 150_000;
const PLACES: usize = 128;

/// Some declarations, then perhaps other rows; and the rows of the role 1 channels.
fn some_rows(random: &mut Random) -> (Vec<i32>, Vec<usize>) {
    let mut rows = Vec::new();
    let mut channels = Vec::new();
    let declarations = random.pick(&[0, 1, 1, 2, 3, 5, 8, 13, 120]);
    for row in 0..declarations {
        let role = random.pick(&[0, 1, 1, 1, 2]);
        if random.below(3) == 0 {
            rows.extend([1, 1 + random.below(3) as i32, 0, 0]);
        } else {
            rows.extend([2, 1, role, 0]);
            if role == 1 {
                channels.push(row);
            }
        }
    }
    if random.below(2) == 0 {
        rows.extend([20, 0, 0, 0, 2, 1, 1, 0]);
    }
    (rows, channels)
}

/// A sheet of readings for these channels.
fn some_sheet(random: &mut Random, channels: &[usize]) -> Vec<u8> {
    let lines = match random.below(20) {
        0 => 126 + random.below(4),
        1 => 60 + random.below(60),
        _ => random.below(6),
    };
    let mut sheet = first_line(channels);
    sheet.push('\n');
    for _ in 0..lines {
        let line: Vec<String> = (channels.iter())
            .map(|_| match random.below(4) {
                0 => String::new(),
                _ => random.whole().to_string(),
            })
            .collect();
        sheet += &line.join(",");
        sheet.push('\n');
    }
    sheet.into_bytes()
}

/// Damages a sheet, often in its first line or at its end.
fn damage_sheet(random: &mut Random, sheet: &mut Vec<u8>) {
    match random.below(6) {
        0 => {
            let end = sheet.iter().position(|&byte| byte == b'\n').unwrap_or(0);
            let rest = sheet.split_off(end);
            damage(random, sheet);
            sheet.extend(rest);
        }
        1 => {
            sheet.pop();
        }
        2 => {
            let length = random.pick(&[16_383, 16_384, 16_385]);
            sheet.resize(length, random.pick(b"\n1,"));
        }
        _ => damage(random, sheet),
    }
}

/// A buffer with room for so many channels, or now and then of another length.
fn buffer<T: Clone>(random: &mut Random, channels: usize, item: T) -> Vec<T> {
    let room = PLACES * channels;
    let other = random.pick(&[0, 1, room.saturating_sub(1), room + 1, 512, 1_024]);
    vec![item; if random.below(10) == 0 { other } else { room }]
}

#[test]
fn readings_agree() {
    let mut random = Random(7);
    let mut accepted = 0;
    for round in 0..SHEETS {
        let (rows, channels) = some_rows(&mut random);
        let mut sheet = some_sheet(&mut random, &channels);
        if random.below(2) == 0 {
            damage_sheet(&mut random, &mut sheet);
        }
        let mut values = buffer(&mut random, channels.len(), -9);
        let mut marks = buffer(&mut random, channels.len(), 77);
        let (mut values_left, mut marks_left) = (values.clone(), marks.clone());
        let room = PLACES * channels.len() <= values.len().min(marks.len());
        let mut place = [1_000_000];
        let told = match readings_of_bytes(&sheet, &channels) {
            Err(refusal) if refusal.place < 2 || room => (10, refusal.place),
            Ok(readings) if room => {
                for channel in 0..channels.len() {
                    for line in 0..readings.count() {
                        let reading = readings.reading(line, channel);
                        values_left[channel * PLACES + line] = reading.unwrap_or(0);
                        marks_left[channel * PLACES + line] = reading.is_some().into();
                    }
                }
                accepted += 1;
                (0, readings.count() as u32)
            }
            _ => (1, place[0]),
        };
        let answer = leaf_tests::sheet(&rows, &sheet, &mut values, &mut marks, &mut place);
        let text = String::from_utf8_lossy(&sheet);
        assert_eq!((answer, place[0]), told, "{round}:\n{rows:?}\n{text}");
        // A wrong line of values leaves what stood before its first wrong field.
        if answer != 10 || place[0] < 2 {
            assert!(values == values_left, "{round}: values\n{rows:?}\n{text}");
            assert!(marks == marks_left, "{round}: marks\n{rows:?}\n{text}");
        }
    }
    println!("{accepted} of {SHEETS} sheets accepted");
    assert!(SHEETS / 3 < accepted && accepted < 2 * SHEETS / 3);
}
