//! The words of a command line: flags, their values, and the others.

use std::str::FromStr;

/// The words of a command, parted.
pub struct Arguments {
    command: String,
    words: Vec<String>,
    valued: Vec<(String, String)>,
    alone: Vec<String>,
}

impl Arguments {
    /// Parts the words of a command, of which these flags have a value and those have none.
    pub fn part(
        command: &str,
        words: &[String],
        valued: &[&str],
        alone: &[&str],
    ) -> Result<Arguments, String> {
        let mut arguments = Arguments {
            command: command.to_string(),
            words: Vec::new(),
            valued: Vec::new(),
            alone: Vec::new(),
        };
        let see = format!("(see `occam-table {command} --help`)");
        let mut rest = words.iter();
        while let Some(word) = rest.next() {
            if alone.contains(&word.as_str()) {
                arguments.alone.push(word.clone());
            } else if valued.contains(&word.as_str()) {
                let value = rest
                    .next()
                    .ok_or_else(|| format!("{word} needs a value {see}"))?;
                arguments.valued.push((word.clone(), value.clone()));
            } else if word.starts_with("--") {
                return Err(format!("{command} has no flag {word} {see}"));
            } else {
                arguments.words.push(word.clone());
            }
        }
        Ok(arguments)
    }

    /// The words that are no flags.
    pub fn words(&self) -> Vec<&str> {
        self.words.iter().map(String::as_str).collect()
    }

    /// The one word that is no flag, by its name in the help.
    pub fn only(&self, name: &str) -> Result<&str, String> {
        match self.words()[..] {
            [word] => Ok(word),
            _ => Err(self.wrong_words(name)),
        }
    }

    /// What is wrong where other words are wanted than were given.
    pub fn wrong_words(&self, wanted: &str) -> String {
        let command = &self.command;
        let given = match self.words.len() {
            0 => "nothing was given".to_string(),
            _ => format!("given: {}", self.words.join(" ")),
        };
        format!("{command} needs {wanted}; {given} (see `occam-table {command} --help`)")
    }

    /// That these two flags are not both there.
    pub fn apart(&self, one: &str, other: &str) -> Result<(), String> {
        match self.has(one) && self.has(other) {
            true => Err(format!("{one} and {other} go apart: leave one out")),
            false => Ok(()),
        }
    }

    /// Whether a flag without value is there.
    pub fn has(&self, flag: &str) -> bool {
        self.alone.iter().any(|word| word == flag)
    }

    /// The number of a flag, if it is there.
    pub fn number<N: FromStr>(&self, flag: &str) -> Result<Option<N>, String> {
        self.value(flag)
            .map(|value| one_number(flag, value))
            .transpose()
    }

    /// The numbers of a flag, joined by commas; none without the flag.
    pub fn numbers<N: FromStr>(&self, flag: &str) -> Result<Vec<N>, String> {
        let value = self.value(flag).unwrap_or("");
        let pieces = value.split(',').filter(|_| !value.is_empty());
        pieces.map(|piece| one_number(flag, piece)).collect()
    }

    /// The value of a flag; the last one counts.
    fn value(&self, flag: &str) -> Option<&str> {
        let given = self.valued.iter().rev().find(|(word, _)| word == flag);
        given.map(|(_, value)| value.as_str())
    }
}

/// Reads one number of a flag.
fn one_number<N: FromStr>(flag: &str, text: &str) -> Result<N, String> {
    text.parse()
        .map_err(|_| format!("{flag} needs a whole number in range, not {text:?}"))
}

#[cfg(test)]
mod tests {
    use super::*;

    fn part(words: &str) -> Result<Arguments, String> {
        let words: Vec<String> = words.split_whitespace().map(str::to_string).collect();
        Arguments::part("run", &words, &["--budget", "--choices"], &["--full"])
    }

    #[test]
    fn files_and_flags() {
        let arguments = part("t.csv --budget 7 --full s.csv --choices 1,2").expect("parted");
        assert_eq!(arguments.words(), ["t.csv", "s.csv"]);
        assert_eq!(arguments.number::<u64>("--budget"), Ok(Some(7)));
        assert_eq!(arguments.numbers::<u16>("--choices"), Ok(vec![1, 2]));
        assert!(arguments.has("--full"));
    }

    #[test]
    fn wrong_words() {
        assert!(part("--budget").is_err());
        assert!(part("--what").is_err());
        let arguments = part("--budget x --choices 65536 t.csv").expect("parted");
        assert!(arguments.number::<u64>("--budget").is_err());
        assert!(arguments.numbers::<u16>("--choices").is_err());
        assert_eq!(arguments.only("TABLE"), Ok("t.csv"));
        assert!(part("t.csv s.csv").expect("parted").only("TABLE").is_err());
        assert!(part("").expect("parted").only("TABLE").is_err());
    }
}
