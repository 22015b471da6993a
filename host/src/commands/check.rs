//! `bullseye check`: the number of each crop file.
use super::{Command, files_help};
use crate::{
    arguments::{Arguments, MANY},
    files::{self, Said},
    inputs::{Input, Inputs},
    output::Problem,
};
use crops::Unknown;
use std::ffi::OsString;

pub const COMMAND: Command = Command {
    name: "check",
    what: "the number that refuses each crop file, or 0",
    help: concat!(
        "\
Usage: bullseye check [--list | -0] FILE..

Prints for each crop file the first number of 1 to 5 that is true of it, or 0, and what it says:
  FILE: NUMBER MEANING

",
        files_help!(),
        "\
A file that is refused or cannot be read does not end the run.

Exit status: 0 all files are accepted; 1 a file is refused or cannot be read; 2 bad usage.

Example: bullseye check examples/parcel.crop
"
    ),
    run,
};

fn run(args: &[OsString]) -> Result<bool, Problem> {
    let inputs = Inputs::of(&Arguments::of(args, &MANY)?)?;
    files::say_each(&inputs, line)
}

fn line(input: &Input, file: &[u8]) -> Result<Said, Unknown> {
    let number = bullseye::check(file);
    let meaning = crops::check_meaning(number)?;
    let mut text = input.path.as_encoded_bytes().to_vec();
    text.extend(format!(": {number} {meaning}\n").bytes());
    Ok(Said {
        text,
        complaint: None,
        good: number == 0,
    })
}
