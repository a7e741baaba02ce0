//! `read`: the table that a text is read to.

use crate::arguments::Arguments;
use crate::code::Code;
use crate::faults::Given;
use crate::input::{self, Source, TEXT};
use crate::report::{refusal_words, Report};
use occam_table::{read_text, Refusal};

/// The first line of a table.
const HEAD: &str = "kind,a,b,c\n";

/// The command.
pub fn command(words: &[String]) -> Result<Report, String> {
    let arguments = Arguments::part("read", words, &[], &["--plain", TEXT])?;
    let source = input::read(arguments.only("TEXT, or - for standard input")?)?;
    Ok(match (read_text(&source.bytes), arguments.has("--plain")) {
        (Ok(rows), _) => Report::accepted(table(&rows)),
        (Err(refusal), true) => Report::refused_line(refusal),
        (Err(refusal), false) => refused(refusal, source),
    })
}

/// The bytes of a table of these rows.
fn table(rows: &[[i32; 4]]) -> String {
    let row = |[kind, a, b, c]: &[i32; 4]| format!("{kind},{a},{b},{c}\n");
    let rows = rows.iter().map(row);
    std::iter::once(HEAD.to_string()).chain(rows).collect()
}

/// The report of a refusal: words beside standard output, which is for the table.
fn refused(refusal: Refusal, source: Source) -> Report {
    let code = Code::new(source.bytes, true);
    let given = Given {
        code: &code,
        sheet: &[],
        budget: 0,
    };
    Report {
        text: String::new(),
        aside: refusal_words(refusal, &source.name, &given),
        status: 1,
    }
}
