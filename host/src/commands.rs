//! The commands, one file for each.
use crate::{
    files,
    image::Image,
    output::{Problem, of_file},
    run::{self, Run},
};
use crops::Unknown;
use std::ffi::{OsStr, OsString};

mod blank;
mod cases;
mod cells;
mod certify;
mod check;
mod compare;
mod crop;
mod find;
mod folder;
mod pbm;
mod redact;
mod summary;
mod table;
mod view;

/// What FILE is, in the help of each command that reads many.
macro_rules! files_help {
    () => {
        "\
FILE is a crop file; - is standard input. Of a folder all files are taken, those of folders in it too, in the order of their names;
names that begin with a dot are left out.
--list   more names are on standard input, one to a line
-0       the same, parted by zero bytes
"
    };
}
use files_help;

/// What `--ellipse` does, in the help of each command that takes it.
macro_rules! ellipse_help {
    () => {
        "\
--ellipse  checks each kept record for an ellipse first: one has outcome 3, class 4, no turn, and zeros for a box. The check reads more
           pixels: a search of a label mostly takes up to half as long again, of some crops far longer
"
    };
}
use ellipse_help;

/// A command of the program.
pub struct Command {
    pub name: &'static str,
    /// A line for the list of commands.
    pub what: &'static str,
    pub help: &'static str,
    /// False when the exit status is 1 and all has been said.
    pub run: fn(&[OsString]) -> Result<bool, Problem>,
}

pub const COMMANDS: [&Command; 13] = [
    &check::COMMAND,
    &find::COMMAND,
    &summary::COMMAND,
    &table::COMMAND,
    &compare::COMMAND,
    &view::COMMAND,
    &cells::COMMAND,
    &blank::COMMAND,
    &redact::COMMAND,
    &certify::COMMAND,
    &pbm::COMMAND,
    &crop::COMMAND,
    &cases::COMMAND,
];

/// The file of a command that takes one crop, read and searched; a refused one is a failure.
pub struct Searched {
    pub image: Image,
    pub run: Run,
}

impl Searched {
    fn of(path: &OsStr, ellipse: bool) -> Result<Self, Problem> {
        Searched::of_bytes(path, &files::read_one(path)?, ellipse)
    }

    /// A crop's bytes, searched with the ellipse check or without; the path is for complaints.
    fn of_bytes(path: &OsStr, file: &[u8], ellipse: bool) -> Result<Self, Problem> {
        let failed = |reason: String| Problem::Failed(of_file(path, &reason));
        let searched = Searched::of_file(file, ellipse);
        let searched = searched.map_err(|unknown| failed(unknown.to_string()))?;
        searched.map_err(failed)
    }

    /// The same, or in words why they are refused.
    pub fn of_file(file: &[u8], ellipse: bool) -> Result<Result<Self, String>, Unknown> {
        let image = match Image::of_file(file) {
            Ok(image) => image,
            Err(refusal) => return Ok(Err(refusal)),
        };
        let run = run::search(file, ellipse)?;
        Ok(match run.seen.refusal() {
            None => Ok(Searched { image, run }),
            Some(refusal) => Err(refusal),
        })
    }
}
