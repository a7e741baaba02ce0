//! Damage to the text of tables and sheets (refusals 2, 3, 10), byte by byte.

use super::random::Random;

/// Number texts that are not of the table's form, or nearly not.
const ODD_NUMBERS: [&str; 22] = [
    "",
    "-",
    "00",
    "-0",
    "+1",
    "01",
    "-01",
    " 1",
    "1 ",
    "1.0",
    "1e3",
    "0x1F",
    "--1",
    "2147483648",
    "-2147483649",
    "99999999999999999999",
    "4294967296",
    "one",
    "1\r",
    "\u{2212}1",
    "1\0",
    "1\t",
];

/// The pieces of a text, each with its line feed.
fn lines_of(text: &[u8]) -> Vec<Vec<u8>> {
    text.split_inclusive(|&byte| byte == b'\n')
        .map(<[u8]>::to_vec)
        .collect()
}

/// Puts another text in place of one field of a line.
fn replace_field(random: &mut Random, line: &mut Vec<u8>, with: &str) {
    let ends = line.ends_with(b"\n");
    let whole = line.strip_suffix(b"\n").unwrap_or(line);
    let mut fields: Vec<Vec<u8>> = whole
        .split(|&byte| byte == b',')
        .map(<[u8]>::to_vec)
        .collect();
    let field = random.below(fields.len());
    fields[field] = with.as_bytes().to_vec();
    *line = fields.join(&b","[..]);
    if ends {
        line.push(b'\n');
    }
}

/// Makes a table's text one that is refused as 2, in most cases.
pub fn damage_table_text(random: &mut Random, text: &mut Vec<u8>, small: bool) {
    let mut lines = lines_of(text);
    let some_line = random.below(lines.len());
    match random.below(if small { 14 } else { 16 }) {
        0 => {
            let names = [
                "kind,a,b\n",
                "Kind,a,b,c\n",
                "kind,a,b,c \n",
                "kind,a,b,c\r\n",
                "",
                "\n",
                "\u{feff}kind,a,b,c\n",
                "kind,a,b,c,d\n",
                "kind;a;b;c\n",
                "kind,a,b,c\nkind,a,b,c\n",
            ];
            lines[0] = random.pick(&names).as_bytes().to_vec();
        }
        1..=4 => {
            let odd = random.pick(&ODD_NUMBERS);
            replace_field(random, &mut lines[some_line], odd);
        }
        5 => lines.iter_mut().for_each(end_with_return),
        6 => end_with_return(&mut lines[some_line]),
        7 => {
            lines[some_line].pop();
        }
        8 => {
            if let Some(last) = lines.last_mut() {
                last.pop();
            }
        }
        9 => lines.insert(random.below(lines.len() + 1), b"\n".to_vec()),
        10 => {
            let place = random.below(lines[some_line].len());
            lines[some_line].insert(place, b',');
        }
        11 => {
            let comment = random.pick(&["# a note\n", "0,0,0\n", "1,2,3,4,5\n", "=\r\n", " =\n"]);
            lines.insert(some_line, comment.as_bytes().to_vec());
        }
        12 => lines.clear(),
        13 => lines.push(
            random
                .pick(&["=", "1", "10,1,0,0", "\r", "\0"])
                .as_bytes()
                .to_vec(),
        ),
        14 => {
            *text = overlong(random, text);
            return;
        }
        _ => {
            let line = format!("10,{}{},0,0\n", "0".repeat(random.below(60)), 7);
            lines.insert(some_line, line.into_bytes());
        }
    }
    *text = lines.concat();
}

/// Puts a carriage return before a line's line feed.
fn end_with_return(line: &mut Vec<u8>) {
    if line.pop() == Some(b'\n') {
        line.extend(b"\r\n");
    }
}

/// A table's text of about 32,768 bytes: one below, exactly, one above, or far above.
fn overlong(random: &mut Random, text: &[u8]) -> Vec<u8> {
    let length = random.pick(&[32_767, 32_768, 32_769, 40_000, 70_000]);
    let mut long = text.to_vec();
    while long.len() + 48 < length {
        long.extend(b"13,-2147483648,-2147483648,-2147483648\n");
    }
    while long.len() + 12 < length {
        long.extend(b"10,0,0,0\n");
    }
    let digits = length - long.len() - 8;
    let last = format!("10,{},0,0\n", &"1234567890"[..digits.clamp(1, 10)]);
    long.extend(last.bytes());
    long.resize(length, b'\n');
    long
}

/// Makes a table's text one of more than 1,024 rows, at times with a malformed line around there.
pub fn damage_row_count(random: &mut Random, text: &mut Vec<u8>) {
    let wanted = random.pick(&[1_025, 1_026, 1_026, 1_027, 1_100]);
    let mut lines = lines_of(text);
    while lines.len() < wanted {
        lines.push(b"21,0,0,0\n".to_vec());
    }
    if random.chance(50) {
        let place = random.pick(&[1, 699, 1_023, 1_024, 1_025, 1_026, wanted - 1]);
        if let Some(line) = lines.get_mut(place) {
            let odd = random.pick(&ODD_NUMBERS);
            replace_field(random, line, odd);
        }
    }
    *text = lines.concat();
}

/// Makes a sheet one that is refused as 10, in most cases.
pub fn damage_sheet(random: &mut Random, sheet: &mut Vec<u8>, small: bool) {
    let mut lines = lines_of(sheet);
    if lines.is_empty() {
        return;
    }
    let some_line = random.below(lines.len());
    match random.below(if small { 13 } else { 16 }) {
        0 => {
            let first = random.pick(&["", "\n", "0\n", "1\n", "0,1\n", "00\n", "=\n", ",\n"]);
            lines[0] = first.as_bytes().to_vec();
        }
        1..=3 => {
            let odd = random.pick(&ODD_NUMBERS);
            replace_field(random, &mut lines[some_line], odd);
        }
        4 => lines.iter_mut().for_each(end_with_return),
        5 => {
            if let Some(last) = lines.last_mut() {
                last.pop();
            }
        }
        6 => lines.insert(random.below(lines.len() + 1), b"\n".to_vec()),
        7 => {
            let place = random.below(lines[some_line].len());
            lines[some_line].insert(place, b',');
        }
        8 => lines.push(
            random
                .pick(&["=\n", "x\n", " \n", "7", "\n\n"])
                .as_bytes()
                .to_vec(),
        ),
        9 => lines.clear(),
        10 => {
            let (ends, line) = (b"\n", &mut lines[some_line]);
            line.truncate(line.len() / 2);
            line.extend(ends);
        }
        11 => lines[0].insert(0, b' '),
        12 => lines.swap(0, some_line),
        13 => {
            let filler = lines[lines.len() - 1].clone();
            let wanted = random.pick(&[129, 130, 131, 200]);
            lines.resize(wanted.max(lines.len()), filler);
        }
        14 => {
            let wanted = random.pick(&[16_384, 16_385, 20_000]);
            let length: usize = lines.iter().map(Vec::len).sum();
            lines.push(vec![b'1'; wanted - length.min(wanted)]);
        }
        _ => {
            let line = format!("{}\n", "9".repeat(random.below(400)));
            lines.push(line.into_bytes());
        }
    }
    *sheet = lines.concat();
}

/// Changes, adds, takes out or moves some bytes.
pub fn mutate_bytes(random: &mut Random, bytes: &mut Vec<u8>) {
    for _ in 0..random.between(1, 3) {
        if bytes.is_empty() {
            return;
        }
        let place = random.below(bytes.len());
        let usual = random.pick(b"0123456789-,\n\r= +k");
        match random.below(8) {
            0 => bytes[place] ^= 1 << random.below(8),
            1 => {
                bytes.remove(place);
            }
            2 => bytes.insert(place, usual),
            3..=4 => bytes[place] = usual,
            5 => bytes.truncate(place),
            6 => {
                let mut lines = lines_of(bytes);
                let (one, other) = (random.below(lines.len()), random.below(lines.len()));
                match random.below(3) {
                    0 => lines.swap(one, other),
                    1 => lines.insert(one, lines[other].clone()),
                    _ => {
                        lines.remove(one);
                    }
                }
                *bytes = lines.concat();
            }
            _ => {
                let end = bytes.len().min(place + random.below(40));
                let piece = bytes[place..end].to_vec();
                bytes.extend(piece);
            }
        }
    }
}
