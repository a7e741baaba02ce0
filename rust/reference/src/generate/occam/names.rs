//! Names for declarations: short and long, also words of other occams; none begins with `zz`.

use super::super::random::Random;

/// Names that look like words of the grammar, or are words of source document 001.
const ODD_NAMES: [&str; 14] = [
    "BITAND", "AFTER", "SIZE", "VAL", "TIMER", "skip", "Int", "TRUE1", "FORx", "IF_", "INTx",
    "SEQSEQ", "x", "X",
];

/// Different names, so many.
pub fn some_names(random: &mut Random, count: usize) -> Vec<String> {
    let long = random.chance(10);
    let mut names: Vec<String> = Vec::new();
    while names.len() < count {
        let name = some_name(random, names.len(), long);
        if !names.contains(&name) {
            names.push(name);
        }
    }
    names
}

/// A name.
fn some_name(random: &mut Random, number: usize, long: bool) -> String {
    match random.below(10) {
        0 => random.pick(&ODD_NAMES).to_string(),
        1..=3 => {
            let length = if long { 31 } else { random.between(1, 8) };
            let mut bytes = vec![random.pick(b"abcdefghijklmnopqrstuvwxy")];
            bytes.resize_with(length, || random.pick(b"abzABZ019_"));
            bytes.into_iter().map(char::from).collect()
        }
        _ => format!("n{number}"),
    }
}
