//! `bullseye table`: a line for each file and record, for a spreadsheet.
use super::{Command, ellipse_help, files_help};
use crate::{
    arguments::{Arguments, MANY},
    files,
    inputs::Inputs,
    json,
    output::{Output, Problem},
    progress::Progress,
    table,
};
use std::ffi::OsString;

pub const COMMAND: Command = Command {
    name: "table",
    what: "a line for each crop file and record, as CSV or JSON",
    help: concat!(
        "\
Usage: bullseye table [--ellipse] [--json] [-o FILE] [--list | -0] FILE..

Searches each crop file, with room for 400 records, and writes CSV (RFC 4180): a header, then a line for each kept record of each
file; a file without records has one line, with the record's columns empty.
  file answer found kept marked    the file, its answer and counts; without records 8 is empty, 9 set aside, 7 too many
  record                           the record's number in its file, from 1, the best first
  x y radius                       the circle as found, in pixels
  outcome                          1 turned, 0 no turn, 2 lost centre, 3 ellipse
  scale rotation class             the scale of the turn, its degrees, the class: 0 to 3, or 4 without a turn
  variance last_x last_y           the variance; the last centre inside the image, in pixels
  left_bottom_x .. right_top_y     the four corners of the box, in pixels
  problem                          why a file could not be read; its other columns are empty
  ellipse                          1 in each line; the column is there with --ellipse alone
Decimal digits are as many as tell an f32 from all others. Tables that are joined, with one header or several, are the table of all files;
all must be made with --ellipse, or none. `bullseye summary --table` and `bullseye compare` work from tables.

",
        ellipse_help!(),
        files_help!(),
        "\
A file that is refused or cannot be read is named on standard error too, and does not end the run.
--json   writes JSON lines instead: an object for each line, null where a column is empty; in a file's name a byte B that is not UTF-8
         is written \\udcB
-o FILE  writes there instead of to standard output, once all is done

Exit status: 0 all files were searched; 1 a file is refused or cannot be read, or FILE cannot be written; 2 bad usage.

Example: bullseye table examples/*.crop -o examples.csv
"
    ),
    run,
};

fn run(args: &[OsString]) -> Result<bool, Problem> {
    let takes = [&MANY[..], &["--json", "-o", "--ellipse"]].concat();
    let arguments = Arguments::of(args, &takes)?;
    let ellipse = arguments.ellipse;
    let inputs = Inputs::of(&arguments)?;
    let mut output = Output::to(arguments.output.as_deref())?;
    let line = match arguments.json {
        true => json::line,
        false => {
            output.write(&table::header(ellipse))?;
            table::csv_line
        }
    };
    let progress = Progress::over(&inputs, output);
    files::search_each(&inputs, ellipse, progress, |name, seen, progress| {
        let lines: Vec<Vec<u8>> = table::rows(name, &seen, ellipse)
            .iter()
            .map(|row| line(row))
            .collect();
        progress.print(&lines.concat())
    })
}
