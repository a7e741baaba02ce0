//! The readings sheet (refusal 10).

use crate::number::read_number;
use crate::refusal::Refusal;
use crate::table::lines;

/// Most bytes of a sheet.
pub const SHEET_BYTES: usize = 16_384;
/// Most lines of values.
pub const VALUE_LINES: usize = 128;

/// The readings: lines of values, one for each role 1 channel; absent ones are none.
#[derive(Clone, Debug, Default)]
pub struct Readings {
    lines: Vec<Vec<Option<i32>>>,
}

impl Readings {
    /// How many readings each role 1 channel has.
    pub fn count(&self) -> usize {
        self.lines.len()
    }

    /// The reading at this place of this role 1 channel.
    pub fn reading(&self, place: usize, channel: usize) -> Option<i32> {
        self.lines[place][channel]
    }
}

/// The readings of a sheet for the role 1 channels of these rows, or refusal 10.
pub fn readings_of_bytes(bytes: &[u8], channels: &[usize]) -> Result<Readings, Refusal> {
    if bytes.len() > SHEET_BYTES {
        return Err(Refusal::new(10, 0));
    }
    if bytes.is_empty() {
        return Err(Refusal::new(10, 1));
    }
    let mut readings = Readings::default();
    for (index, line) in lines(bytes).enumerate() {
        let number = index + 1;
        let faulty = Refusal::new(10, number);
        let too_many = number > VALUE_LINES + 1;
        if !line.ends || too_many {
            return Err(faulty);
        }
        if number == 1 {
            if line.bytes != first_line(channels).as_bytes() {
                return Err(faulty);
            }
            continue;
        }
        readings
            .lines
            .push(read_values(line.bytes, channels.len()).ok_or(faulty)?);
    }
    Ok(readings)
}

/// The first line of a sheet: the role 1 channels in row order, joined by commas.
pub fn first_line(channels: &[usize]) -> String {
    let names: Vec<String> = channels.iter().map(usize::to_string).collect();
    names.join(",")
}

/// Reads a line of exactly this many values, an empty field for an absent one.
/// A line has at least one field, so with no channel none fits.
fn read_values(line: &[u8], count: usize) -> Option<Vec<Option<i32>>> {
    let fields = line.split(|&byte| byte == b',');
    let values: Option<Vec<Option<i32>>> = fields.take(count + 1).map(read_reading).collect();
    values.filter(|values| values.len() == count)
}

/// Reads one field: none for an absent reading, or a number of the table's form.
fn read_reading(field: &[u8]) -> Option<Option<i32>> {
    if field.is_empty() {
        return Some(None);
    }
    read_number(field).map(Some)
}
