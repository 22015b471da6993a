//! `bullseye find`: the program's lines for each crop file.
use super::{Command, ellipse_help, files_help};
use crate::{
    arguments::{Arguments, MANY},
    files::{self, Said},
    inputs::Inputs,
    output::Problem,
    run,
};
use crops::Unknown;
use std::ffi::OsString;

pub const COMMAND: Command = Command {
    name: "find",
    what: "the bull's-eyes of each crop file, in the program's lines",
    help: concat!(
        "\
Usage: bullseye find [--ellipse] [--list | -0] FILE..

Searches each crop file, with room for 400 records, and prints
  answer A found F kept K marked M
and a line for each kept record, best first:
  X Y RADIUS OUTCOME SCALE ROTATION CLASS VARIANCE CORNERS
X, Y and RADIUS are of the circle as found, in pixels. OUTCOME is 1 turned, 0 no turn, 2 lost centre, 3 ellipse. ROTATION is in
degrees. CLASS is 0 to 3, the turn in quarters, or 4 without a turn. VARIANCE and the eight CORNERS (left bottom, left top, right
bottom, right top, x before y) are the bits of f32 in hex.
With more than one file, or a folder or a list, a line `FILE:` comes before the lines of each.

",
        ellipse_help!(),
        files_help!(),
        "\
A file that is refused or cannot be read is named on standard error, with the reason, and does not end the run.

Exit status: 0 all files were searched (answers 0, 7, 8, 9); 1 a file is refused or cannot be read; 2 bad usage.

Example: bullseye find examples/parcel.crop
"
    ),
    run,
};

fn run(args: &[OsString]) -> Result<bool, Problem> {
    let arguments = Arguments::of(args, &[&MANY[..], &["--ellipse"]].concat())?;
    let inputs = Inputs::of(&arguments)?;
    files::say_each(&inputs, |input, file| {
        lines(inputs.heading(input), file, arguments.ellipse)
    })
}

/// The lines of one file, after its heading.
fn lines(heading: Vec<u8>, file: &[u8], ellipse: bool) -> Result<Said, Unknown> {
    let run = run::search(file, ellipse)?;
    let mut text = heading;
    text.extend(bullseye::lines(run.seen.report, &run.buffer));
    Ok(Said {
        text,
        complaint: run.seen.refusal(),
        good: !run.seen.answer.refused(),
    })
}
