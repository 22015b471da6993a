//! `bullseye blank`: crops with every pixel that was not read made white.
use super::{
    Command, Searched, ellipse_help, files_help,
    folder::{self, Changed},
};
use crate::{
    arguments::{Arguments, MANY},
    blanking::{Blanked, blanked},
    inputs::Inputs,
    kept::Kept,
    output::{Problem, complain, deliver, of_file, with_ellipse},
};
use std::{
    ffi::{OsStr, OsString},
    path::Path,
};

pub const COMMAND: Command = Command {
    name: "blank",
    what: "crops with every pixel that the search did not read made white",
    help: concat!(
        "\
Usage: bullseye blank [--ellipse] FILE [-o CROP]
       bullseye blank [--ellipse] [--list | -0] FILE.. -o FOLDER

Searches a crop, with room for 400 records, makes every pixel white that the search did not read, and searches again: both searches
must agree in answer and counts, in every word of 400 records, and in the marks. Says how many pixels were kept, and how many rows
from side to side, but for 6 pixels at each: these still show what stood there, an address too (see redact).
Of one crop the blanked one is written, and standard error has a line that says whether the searches agree.
Of several, or with a FOLDER that is there, each blanked crop is written to FOLDER, under the name that it has itself, or below the
folder that was given; FOLDER is made where it is missing. Standard output has a line for each crop, then one with the total. A crop
whose searches differ is not written. With --ellipse both searches have the check, and each line says so.

",
        ellipse_help!(),
        files_help!(),
        "\
A file that is refused or cannot be read is named on standard error, with the reason, and does not end the run.
-o CROP  writes there instead of to standard output

Exit status: 0 all searches agree; 1 two differ, or a file is refused, or cannot be read or written; 2 bad usage.

Example: bullseye blank examples/*.crop -o blanked
"
    ),
    run,
};

fn run(args: &[OsString]) -> Result<bool, Problem> {
    let arguments = Arguments::of(args, &[&MANY[..], &["-o", "--ellipse"]].concat())?;
    let ellipse = arguments.ellipse;
    let inputs = Inputs::of(&arguments)?;
    let output = arguments.output.as_deref();
    match output {
        Some(folder) if !inputs.single || Path::new(folder).is_dir() => {
            many(&inputs, folder, ellipse)
        }
        None if !inputs.single => Err(Problem::Usage("several crops need -o FOLDER".into())),
        _ => one(&arguments.files[0], output, ellipse),
    }
}

/// Blanks one crop.
fn one(path: &OsStr, output: Option<&OsStr>, ellipse: bool) -> Result<bool, Problem> {
    let Searched { image, run } = Searched::of(path, ellipse)?;
    let done = blanked(image, &run)
        .map_err(|unknown| Problem::Failed(of_file(path, &unknown.to_string())))?;
    deliver(&done.file, output)?;
    complain(&of_file(path, &done.words(ellipse)));
    Ok(done.difference.is_none())
}

/// Blanks many crops into a folder.
fn many(inputs: &Inputs, folder: &OsStr, ellipse: bool) -> Result<bool, Problem> {
    let change = |Searched { image, run }: Searched| {
        let done = blanked(image, &run)?;
        Ok(Changed {
            agrees: done.difference.is_none(),
            words: done.words(ellipse),
            file: done.file,
            sums: done.whitened,
        })
    };
    let mut whitened = 0;
    let add = |count: usize| whitened += count;
    let total = folder::run(inputs, ellipse, folder, change, add)?;
    total.print(&format!("made {whitened} unread black pixels white"))
}

impl Blanked {
    fn words(&self, ellipse: bool) -> String {
        let verdict = match &self.difference {
            None => "both searches agree in answer, counts, records and marks".into(),
            Some(what) => format!("the searches differ in {what}"),
        };
        let Kept {
            pixels,
            of_pixels,
            rows,
            of_rows,
        } = self.kept;
        format!(
            "made {} unread black pixels white; kept {pixels} of {of_pixels} pixels, \
{rows} of {of_rows} rows from side to side; {verdict}{}",
            self.whitened,
            with_ellipse(ellipse)
        )
    }
}
