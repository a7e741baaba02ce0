//! `explain`: what each refusal means.

use crate::arguments::Arguments;
use crate::report::Report;

/// What a refusal means.
pub struct Meaning {
    /// One line.
    pub summary: &'static str,
    /// What the place counts.
    place: &'static str,
    /// What to look for.
    advice: &'static str,
    /// What to do, in one line.
    pub help: &'static str,
}

/// The meanings of the refusals, in the order of their numbers, from 1 on.
const MEANINGS: [Meaning; 14] = [
    Meaning {
        summary: "a lent buffer is too short",
        place: "0",
        advice: "Only a program that calls the library itself can see this; the seven buffers\n\
                 must be at least 256, 256, 1024, 8, 1024, 8 and 1024 long.",
        help: "lend buffers that are at least as long as these limits",
    },
    Meaning {
        summary: "the table's bytes are not as they should be",
        place: "the line, counted from 1; 0 if the table has more than 32768 bytes",
        advice: "The first line is kind,a,b,c. Every other line is four whole numbers parted by\n\
                 commas: no spaces, no plus, no leading zeros, no -0, from -2147483648 to\n\
                 2147483647. Every line, the last too, ends with a line feed and no carriage\n\
                 return.",
        help: "write that line as four whole numbers parted by commas, with a line feed at its end",
    },
    Meaning {
        summary: "there are more than 1024 rows",
        place: "1024; for rows lent as numbers the count of whole rows, at most 1024",
        advice: "Line 1026 of the table is one too many. Rows lent as numbers are also refused\n\
                 if they are not four numbers each. The rows of a text are those of the table that\n\
                 it makes.",
        help: "take rows out until there are at most 1024",
    },
    Meaning {
        summary: "a row has a wrong kind, number, name or unused field",
        place: "the lowest row at fault, counted from 0 (row r is line r + 2 of a table)",
        advice: "The kind is unknown; or a variable or channel comes after another kind; or an\n\
                 operator, size, role or capacity is out of range; or a name is not the row of a\n\
                 declaration of the sort and role wanted; or operator 2, GIVEN, has an operand\n\
                 that is no element; or a field that the kind does not use is not 0.",
        help: "put into that field what is expected there",
    },
    Meaning {
        summary: "a reference is wrong, or a row is not referred to exactly once",
        place: "the lowest row at fault; the count of rows if there is no root",
        advice: "The root is the first row after the declarations and must be a process, kind 20\n\
                 to 35. Every reference goes to a higher row of the kind named (-1 only for\n\
                 \"first\" and \"next\"). Every row after the root is referred to exactly once;\n\
                 wrong references are not counted.",
        help: "let every row after the root be referred to once, by a lower row that wants its kind",
    },
    Meaning {
        summary: "a declaration passes a limit",
        place: "the declaration that passes it",
        advice:
            "At most 256 cells, 256 channel elements (host channels too), 8 channels from the\n\
                 host, 8 to the host, and capacities of 1024 together.",
        help: "declare fewer or smaller ones, so that the sum stays within the limit",
    },
    Meaning {
        summary: "a cell changed in one member of a PAR is used in another",
        place: "the lowest PAR with such a clash",
        advice:
            "A cell is changed by an assignment or as an input's target, and used wherever it\n\
                 stands, subscripts included. A subscript made only of literals and operators\n\
                 counts for the cell of its value only, or for none if that is outside the array;\n\
                 any other subscript, or one without a value, counts for the whole array.",
        help: "give each member cells of its own, pass the value on a channel, or put the members in a SEQ",
    },
    Meaning {
        summary: "two members of a PAR input from the same channel element",
        place: "the lowest PAR with such a clash",
        advice: "Inputs in the guards of an ALT count as inputs. A subscript made only of literals\n\
                 and operators counts for the element of its value only, or for none if that is\n\
                 outside the array; any other subscript, or one without a value, counts for every\n\
                 element of the channel.",
        help: "let one member alone input from that element, or give each an element of its own",
    },
    Meaning {
        summary: "two members of a PAR output to the same channel element",
        place: "the lowest PAR with such a clash",
        advice:
            "A subscript made only of literals and operators counts for the element of its\n\
                 value only, or for none if that is outside the array; any other subscript, or one\n\
                 without a value, counts for every element of the channel.",
        help: "let one member alone output to that element, or give each an element of its own",
    },
    Meaning {
        summary: "the readings are not as they should be",
        place: "the line, counted from 1; 0 if the sheet has more than 16384 bytes",
        advice:
            "The first line is the rows of the channels from the host, joined by commas. Then\n\
                 come at most 128 lines, one value for each of these channels; an empty field is\n\
                 an absent reading. Without such a channel the sheet is one empty line. Every\n\
                 line ends with a line feed.",
        help: "write that line as one number, or nothing where a reading is missing, for each channel",
    },
    Meaning {
        summary: "the budget is above 65536",
        place: "0",
        advice: "Ask for at most 65536 steps.",
        help: "ask for at most 65536 steps with --budget",
    },
    Meaning {
        summary: "the text is not of the grammar",
        place: "the first line that no further lines could mend, counted from 1; one more than\n\
                there are lines if something is missing at the end; 0 if the text has more than\n\
                32768 bytes",
        advice: "Declarations come first, one a line, then one process. What belongs to a line\n\
                 stands beneath it, two spaces deeper; the process of a block stands after its\n\
                 INT line, at the same level. No line is blank, there are no comments, no tabs,\n\
                 no spaces at the end of a line, and every line, the last too, ends with a line\n\
                 feed. An expression has one operator; others need brackets, but for chains of\n\
                 AND alone or OR alone. Directly before a digit a minus belongs to the number:\n\
                 x -5 is no subtraction, x - 5 is. There is no TRUE and no FALSE: write 1 and 0.\n\
                 The language is in docs/TEXT.md.",
        help: "mend that line or one before it",
    },
    Meaning {
        summary: "a name of the text is not in order",
        place: "the lowest line at fault, counted from 1",
        advice: "The name is declared nowhere; or it is declared for the second time, a name\n\
                 being declared once in the whole text, blocks included; or it is used as what\n\
                 it is not (a variable as a channel, a HOSTIN for output); or it stands bare,\n\
                 though its size is not one: then write it with a subscript. Capitals count. The\n\
                 form of the whole text is right, or it would be refusal 12.",
        help: "declare the name once at the text's beginning, and use it as what it is declared",
    },
    Meaning {
        summary: "a block is the root or a second one, or a name stands outside its block",
        place: "the lowest row at fault",
        advice: "A block, kind 35, is a process: when it starts, all cells of its variable are\n\
                 unset. The root is no block. A variable has at most one block, the one in the\n\
                 lowest row, and then every element (an input's target too) and assignment that\n\
                 names the variable stands beneath that block.",
        help: "give each variable one block at most, not as the root, with every row that names the variable beneath it",
    },
];

/// The meaning of a refusal; the library tells only these numbers.
pub fn meaning(number: u8) -> &'static Meaning {
    let meaning = usize::from(number)
        .checked_sub(1)
        .and_then(|at| MEANINGS.get(at));
    meaning.unwrap_or_else(|| panic!("the library told a refusal {number}, which no paper has"))
}

/// The command: one number, or all of them in one line each.
pub fn command(words: &[String]) -> Result<Report, String> {
    let arguments = Arguments::part("explain", words, &[], &[])?;
    if words.is_empty() {
        return Ok(Report::accepted(all()));
    }
    let word = arguments.only("NUMBER")?;
    match word.parse() {
        Ok(number) if (1..=MEANINGS.len()).contains(&usize::from(number)) => {
            Ok(Report::accepted(one(number)))
        }
        _ => Err(format!(
            "there is no refusal {word:?}; they are numbered 1 to {}",
            MEANINGS.len()
        )),
    }
}

/// All refusals, one line each.
fn all() -> String {
    let lines = MEANINGS
        .iter()
        .zip(1..)
        .map(|(meaning, number): (_, u8)| format!("{number:2}  {}\n", meaning.summary));
    lines.collect()
}

/// One refusal.
fn one(number: u8) -> String {
    let Meaning {
        summary,
        place,
        advice,
        help,
    } = meaning(number);
    format!("refusal {number}: {summary}\nplace: {place}\n\n{advice}\nhelp: {help}\n")
}
