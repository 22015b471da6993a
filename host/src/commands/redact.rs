//! `bullseye redact`: crops with less black that give the same result.
use super::{
    Command, Searched, ellipse_help, files_help,
    folder::{self, Changed},
};
use crate::{
    arguments::{Arguments, MANY},
    inputs::Inputs,
    output::{Problem, complain, deliver, of_file, print, with_ellipse},
    redacting::{Redaction, black_pixels, difference, redaction},
};
use bullseye::redact::{Extent, Redacted};
use std::{
    ffi::{OsStr, OsString},
    path::Path,
};

pub const COMMAND: Command = Command {
    name: "redact",
    what: "crops with as little black as was found to give the same result",
    help: concat!(
        "\
Usage: bullseye redact [--ellipse] [--least] FILE [-o CROP]
       bullseye redact [--ellipse] [--least] [--list | -0] FILE.. -o FOLDER
       bullseye redact [--ellipse] --check CROP REDACTED

Searches a crop, with room for 400 records, and makes black pixels white for as long as a search gives the same answer, found, kept and
record words; which pixels are read may change. Blocks are tried, largest first, and halved where the search no longer agrees. No
white pixel becomes black. The rectangle about the box of each kept record, of an ellipse that about its circle, is spared: there only
what the search did not read is made white, so that the symbol can still be seen. A crop with W columns and H rows is searched at most
16 * (W + H) times. With --ellipse all searches have the check, and each line says so; without it the result may be another.
Last, the bytes that are to be written are searched and compared; where they disagree they are not written.
Of one crop the redacted one is written, and standard error has a line with the black pixels before and after and the searches.
Of several, or with a FOLDER that is there, each redacted crop is written to FOLDER, under the name that it has itself, or below the
folder that was given; FOLDER is made where it is missing. Standard output has a line for each crop, then one with the total.

--least  spares nothing
--check  whether REDACTED gives the result of CROP, and has no black pixel that CROP has white
",
        ellipse_help!(),
        "\n",
        files_help!(),
        "\
A file that is refused or cannot be read is named on standard error, with the reason, and does not end the run.
-o CROP  writes there instead of to standard output

Exit status: 0 all agree; 1 two searches differ, or a file is refused, or cannot be read or written; 2 bad usage.

Example: bullseye redact examples/*.crop -o redacted
"
    ),
    run,
};

fn run(args: &[OsString]) -> Result<bool, Problem> {
    let takes = [&MANY[..], &["-o", "--least", "--check", "--ellipse"]].concat();
    let arguments = Arguments::of(args, &takes)?;
    if arguments.check {
        return check(&arguments);
    }
    let (extent, ellipse) = (arguments.extent(), arguments.ellipse);
    let inputs = Inputs::of(&arguments)?;
    let output = arguments.output.as_deref();
    match output {
        Some(folder) if !inputs.single || Path::new(folder).is_dir() => {
            many(&inputs, folder, extent, ellipse)
        }
        None if !inputs.single => Err(Problem::Usage("several crops need -o FOLDER".into())),
        _ => one(&arguments.files[0], output, extent, ellipse),
    }
}

/// Redacts one crop.
fn one(
    path: &OsStr,
    output: Option<&OsStr>,
    extent: Extent,
    ellipse: bool,
) -> Result<bool, Problem> {
    let redacted = redaction(&Searched::of(path, ellipse)?, extent)
        .map_err(|unknown| Problem::Failed(of_file(path, &unknown.to_string())))?;
    if redacted.difference.is_none() {
        deliver(&redacted.file, output)?;
    }
    complain(&of_file(path, &redacted.words(ellipse)));
    Ok(redacted.difference.is_none())
}

/// Redacts many crops into a folder.
fn many(inputs: &Inputs, folder: &OsStr, extent: Extent, ellipse: bool) -> Result<bool, Problem> {
    let change = |crop: Searched| {
        let redacted = redaction(&crop, extent)?;
        Ok(Changed {
            agrees: redacted.difference.is_none(),
            words: redacted.words(ellipse),
            file: redacted.file,
            sums: redacted.done,
        })
    };
    let (mut before, mut after, mut searches) = (0, 0, 0);
    let add = |done: Redacted| {
        before += done.black_before;
        after += done.black_after;
        searches += done.searches;
    };
    let total = folder::run(inputs, ellipse, folder, change, add)?;
    total.print(&format!("black {before} to {after} in {searches} searches"))
}

/// Says whether one crop is a redaction of another.
fn check(arguments: &Arguments) -> Result<bool, Problem> {
    let [crop, redacted] = &arguments.files[..] else {
        return Err(Problem::Usage("--check takes CROP and REDACTED".into()));
    };
    if arguments.least || arguments.list || arguments.output.is_some() {
        let alone = "--check stands without other options, but for --ellipse";
        return Err(Problem::Usage(alone.into()));
    }
    let search = |path: &OsStr| Searched::of(path, arguments.ellipse);
    let (before, after) = (search(crop)?, search(redacted)?);
    let difference = difference(&before, &after);
    let verdict = match &difference {
        None => "the same result and no other black".into(),
        Some(what) => format!("not the same: {what}"),
    };
    let black = format!(
        "black {} to {}{}",
        black_pixels(&before.image),
        black_pixels(&after.image),
        with_ellipse(arguments.ellipse)
    );
    print(format!("{}: {verdict}; {black}\n", Path::new(redacted).display()).as_bytes())?;
    Ok(difference.is_none())
}

impl Redaction {
    fn words(&self, ellipse: bool) -> String {
        let Redacted {
            black_before,
            black_after,
            searches,
            least,
            ..
        } = self.done;
        let verdict = match &self.difference {
            None => "both give the same answer, counts and records".into(),
            Some(what) => format!("not written, since it differs in {what}"),
        };
        let bound = if least { "" } else { ", the most for its size" };
        let option = with_ellipse(ellipse);
        format!(
            "black {black_before} to {black_after} in {searches} searches{bound}; {verdict}{option}"
        )
    }
}
