//! The help texts.

pub const OVERVIEW: &str = "\
occam-table: checks and runs small occam programs, typed as texts or kept as tables of rows

  occam-table check TABLE                 is the table accepted, and if not, what is wrong where
  occam-table read TEXT                   the table that an occam text is read to
  occam-table run TABLE SHEET             run it on a sheet of readings
  occam-table steps TABLE SHEET           the same step by step, for a desk trial
  occam-table ready TABLE SHEET           how many steps are ready after a run
  occam-table orders TABLE SHEET          many random orders: do they agree?
  occam-table explain [NUMBER]            what a refusal means
  occam-table COMMAND --help              more about a command, with examples

Wherever TABLE stands an occam text can be given too. A file is a table if it has no bytes, or if
its first line has a comma or semicolon and either spells kind,a,b,c or the file has a line of
numbers parted so; everything else is a text. With --text it is a text, whatever it looks like.
A `-` stands for standard input: for TABLE a table; alone in place of TABLE and SHEET a table, a
line `=`, and readings, as the sheet runner takes them.
Every answer comes from the proved library; the words around it are presentation.
Exit status: 0 done, 1 the table, text, sheet or budget is refused, 2 wrong use or an unreadable
file.
";

const CHECK: &str = "\
occam-table check TABLE [--text] [--pairs] [--plain]

Tells whether a table or an occam text is accepted. If it is refused: the number and the place,
which are the proved answer, and what is wrong there in plain words: the line or row as written,
which field, what stands there, what was expected; for a clash in a PAR the two members and the cell
or channel element; and what to do. Of a text its lines and names are told. A `-` for TABLE is a
table or a text on standard input.

  --text            the file is a text, whatever it looks like
  --pairs           also how many pairs of components of PARs were compared in search of a clash
                    (for cells, then inputs, then outputs; none after the first that clashes), and
                    how long the check took
  --plain           one line alone: accepted,0,0,0 or refused,NUMBER,PLACE,0;
                    with --pairs accepted,COUNT or refused,NUMBER,PLACE,COUNT
Exit status: 0 accepted, 1 refused, 2 wrong use or an unreadable file.

Examples:
  occam-table check examples/kiln.csv
  occam-table check examples/kiln.occam
  occam-table check --pairs examples/burners.csv
  occam-table check - --plain < examples/kiln.csv
  occam-table check edited-on-site.csv && echo may be loaded
";

const READ: &str = "\
occam-table read TEXT [--plain]

Reads an occam text and prints the table that it makes: the line kind,a,b,c and its rows, numbered
from the top. The declarations are the first rows, in the order of their lines. If the text is
refused, it says in plain words on standard error what is wrong in which line. A `-` for TEXT is a
text on standard input. The language is in docs/TEXT.md.

  --plain           a refusal is one line on standard output: refused,NUMBER,PLACE,0
Exit status: 0 read, 1 refused, 2 wrong use or an unreadable file.

Examples:
  occam-table read examples/kiln.occam
  occam-table read examples/kiln.occam > kiln.csv
";

const RUN: &str = "\
occam-table run TABLE SHEET [--text] [--budget N] [--choices A,B,C] [--full] [--table | --plain]

Runs a table or an occam text on a sheet of readings and prints the lines of the sheet runner:
outcome and steps, each cell, each host output, each stopped row. After the last comma there is
nothing for an unset cell, and for a host output that is an absence. A refusal is one line on
standard output, and in plain words on standard error. Of a text the lines have its names in place
of rows, and `line N` in place of a stopped row. The first line of the sheet names channels by rows
also for a text: the first declaration is row 0. A `-` in place of TABLE and SHEET is standard
input: a table or a text, a line `=`, and readings; for one of the two it is that one.

  --text            the file is a text, whatever it looks like
  --budget N        at most N steps (default and greatest: 65536)
  --choices A,B,C   which ready step to take, in turn (default: always the first)
  --full            also each row's state and each channel's place in the readings
  --table           aligned columns to be read by people; unset cells and absences are empty
  --plain           the sheet runner's lines alone, by rows also of a text; also for a refusal:
                    refused,NUMBER,PLACE,0
Exit status: 0 it ran (whatever the outcome), 1 refused, 2 wrong use or an unreadable file.

Examples:
  occam-table run examples/kiln.csv examples/kiln.readings.csv
  occam-table run examples/kiln.occam examples/kiln.readings.csv
  occam-table run examples/kiln.csv examples/kiln.readings.csv --table --full
  occam-table run examples/intake.csv examples/intake.readings.csv --choices 1,0,1
  occam-table run - --plain < cases/p-worked.in
";

const READY: &str = "\
occam-table ready TABLE SHEET [--text] [--budget N] [--choices A,B,C] [--plain]

Runs a table or an occam text on a sheet of readings and tells how many steps are ready after the
last one: none at rest, one or more when the budget is spent. A communication counts once, each
option of an ALT that could be taken counts, and so does a stop. With --budget 0 it tells what is
ready at the start. A `-` in place of TABLE and SHEET is standard input: a table or a text, a line
`=`, and readings.

  --text            the file is a text, whatever it looks like
  --budget N        at most N steps (default and greatest: 65536)
  --choices A,B,C   which ready step to take, in turn (default: always the first)
  --plain           one line alone: ready,N or refused,NUMBER,PLACE,0
Exit status: 0 it ran (whatever the outcome), 1 refused, 2 wrong use or an unreadable file.

Examples:
  occam-table ready examples/kiln.csv examples/kiln.readings.csv --budget 10
  occam-table ready - --plain --budget 0 < cases/p-worked.in
";

const STEPS: &str = "\
occam-table steps TABLE SHEET [--text] [--budget N] [--choices A,B,C]

Shows a run step by step: which row of a table or line of a text moved, what passed on which
channel, and at rest what is waiting and why. Each state comes from the library, which runs with
budgets of 0, 1, 2 and so on; the words come from comparing these states.

  --text            the file is a text, whatever it looks like
  --budget N        at most N steps (default 1000; a long run takes time, since step n is
                    found by a run of n steps)
  --choices A,B,C   which ready step to take, in turn (default: always the first)
Exit status: 0 it ran (whatever the outcome), 1 refused, 2 wrong use or an unreadable file.

Examples:
  occam-table steps examples/relay.csv examples/relay.readings.csv
  occam-table steps examples/relay.occam examples/relay.readings.csv
  occam-table steps examples/kiln.csv examples/kiln.readings.csv --choices 1,1,1 --budget 12
";

const ORDERS: &str = "\
occam-table orders TABLE SHEET [--text] [--trials N] [--seed S] [--budget N]

Runs the desk order (no choices) and N orders of random choices, and reports that they agree in
outcome, steps, cells, row states, places in the readings and output lists, or how they differ.
For an accepted table without ALT it is proved that all orders that come to rest agree; with ALT
they may differ.

Where orders spend the budget, as those of a sheet that loops for ever do, it reports what all gave
to the host: for each channel what all lists begin with, how far the furthest has come, and where
two part. For an accepted table without ALT it is proved that of any two orders, whatever their
lengths, both can go on to one state, and that on each channel one's list is a beginning of the
other's, absences included; with ALT they may part.

  --text            the file is a text, whatever it looks like
  --trials N        how many random orders (default 1000)
  --seed S          the same seed gives the same orders (default 1)
  --budget N        at most N steps each (default and greatest: 65536)
Exit status: 0 they ran (whether they agree or not), 1 refused, 2 wrong use or an unreadable file.

Examples:
  occam-table orders examples/kiln.csv examples/kiln.readings.csv --trials 1000 --seed 7
  occam-table orders examples/intake.csv examples/intake.readings.csv
  occam-table orders examples/watch.csv examples/watch.readings.csv --trials 100 --budget 30
";

const EXPLAIN: &str = "\
occam-table explain [NUMBER]

Tells what a refusal means, what its place counts and what to look for; without a number it
lists all of them.

Examples:
  occam-table explain 7
  occam-table explain
";

/// The help text that the words ask for, if they do.
pub fn wanted(command: &str, rest: &[String]) -> Option<&'static str> {
    if matches!(command, "--help" | "-h" | "help") {
        return Some(OVERVIEW);
    }
    let asked = rest
        .iter()
        .any(|word| matches!(word.as_str(), "--help" | "-h"));
    let text = match command {
        "check" => CHECK,
        "read" => READ,
        "run" => RUN,
        "ready" => READY,
        "steps" => STEPS,
        "orders" => ORDERS,
        "explain" => EXPLAIN,
        _ => return None,
    };
    asked.then_some(text)
}
