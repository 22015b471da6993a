//! `bullseye cases`: calls in text, run through the library's entries.
use super::Command;
use crate::{
    arguments::Arguments,
    files,
    output::{Problem, deliver, of_file, print, reason},
    program,
};
use crops::cases::{self, Entries, Stock};
use std::ffi::{OsStr, OsString};

pub const COMMAND: Command = Command {
    name: "cases",
    what: "calls of the entries and what is seen after them, in text, run and compared",
    help: "\
Usage: bullseye cases CROPS CASES
       bullseye cases --write CROPS CASES [-o FILE]

Runs each call of CASES through the library's entries and compares all that is seen afterwards. Prints each line that differs, and
below it what was seen; then one line:
  N passed, M failed, K skipped
Skipped is a call whose entry this build does not have, and a call of the program where there is none.

CROPS has `ID HEX` on each line, the bytes of a crop file. In CASES a line that begins with # or | is for the reader; each other line is
  CALL key=value .. => key=value ..
left what the entry is given, right what is seen. docs/MANUAL.md has the calls and keys. - is standard input.
The call `program` runs crates/find/out/find, or the program that the variable FIND names.

--write  prints CASES again, with right sides as seen; a line that is skipped stays as it is
-o FILE  writes that there instead of to standard output

Exit status: 0 no line differs, or written; 1 a line differs, or what was to be written cannot be; 2 bad usage, or a file that cannot be
read or has a line that is no case: the line's number is told.

Example: bullseye cases examples/crops.txt examples/cases.txt
",
    run,
};

fn run(args: &[OsString]) -> Result<bool, Problem> {
    let arguments = Arguments::of(args, &["--write", "-o"])?;
    let [crops, cases] = &arguments.files[..] else {
        return Err(Problem::Usage(
            "two files are needed: CROPS and CASES".into(),
        ));
    };
    if crops == "-" && cases == "-" {
        return Err(Problem::Usage("only one of them is standard input".into()));
    }
    if arguments.output.is_some() && !arguments.write {
        return Err(Problem::Usage("-o goes with --write".into()));
    }
    let stock = Stock::parse(&text(crops)?).map_err(|problem| trouble(crops, &problem))?;
    let text = text(cases)?;
    let program = program::find();
    let printed = program
        .as_ref()
        .map(|path| move |input: &[u8]| program::printed(path, input));
    let entries = Entries {
        host: bullseye::check,
        unpack: bullseye::unpack,
        search_file: bullseye::search_file,
        search_words: bullseye::search_words,
        cells_file: bullseye::cells_file,
        cells_words: bullseye::cells_words,
        program: printed.as_ref().map(|run| run as _),
    };
    match arguments.write {
        true => write(cases, &text, &stock, &entries, arguments.output.as_deref()),
        false => compare(cases, &text, &stock, &entries),
    }
}

/// Prints the cases with right sides as seen.
fn write(
    path: &OsStr,
    text: &str,
    stock: &Stock,
    entries: &Entries,
    output: Option<&OsStr>,
) -> Result<bool, Problem> {
    let written =
        cases::written(text, stock, entries).map_err(|problem| trouble(path, &problem))?;
    deliver(written.as_bytes(), output)?;
    Ok(true)
}

/// Prints the lines that differ, and how many there are of each kind.
fn compare(path: &OsStr, text: &str, stock: &Stock, entries: &Entries) -> Result<bool, Problem> {
    let mut differing = String::new();
    let verdict = cases::compared(text, stock, entries, |line, seen| {
        differing += &format!("{line}\n| seen {seen}\n");
    });
    print(differing.as_bytes())?;
    let verdict = verdict.map_err(|problem| trouble(path, &problem))?;
    print(format!("{verdict}\n").as_bytes())?;
    Ok(verdict.failed == 0)
}

/// The text of a file.
fn text(path: &OsStr) -> Result<String, Problem> {
    let trouble = |reason: &str| Problem::Trouble(of_file(path, reason));
    let bytes = files::read_some(path, LONGEST).map_err(|error| trouble(&reason(&error)))?;
    if bytes.len() == LONGEST {
        return Err(trouble("longer than a file of cases may be"));
    }
    String::from_utf8(bytes).map_err(|error| {
        let good = &error.as_bytes()[..error.utf8_error().valid_up_to()];
        let line = 1 + good.iter().filter(|&&byte| byte == b'\n').count();
        trouble(&format!("line {line}: no text"))
    })
}

/// Bytes that a file of crops or cases may have.
const LONGEST: usize = 1 << 28;

/// A line that is no case, or no crop.
fn trouble(path: &OsStr, problem: &cases::Problem) -> Problem {
    Problem::Trouble(of_file(path, &problem.to_string()))
}
