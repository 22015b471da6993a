//! `bullseye summary`: what is missed and what is found in many crop files.
use super::{Command, ellipse_help, files_help};
use crate::{
    arguments::{Arguments, MANY},
    counts::Counts,
    files,
    inputs::Inputs,
    output::{Output, Problem, complain, of_file, print},
    progress::Progress,
    run::complaint,
    table,
};
use std::ffi::OsString;

pub const COMMAND: Command = Command {
    name: "summary",
    what: "what is missed and what is found in many crop files, as tables",
    help: concat!(
        "\
Usage: bullseye summary [--ellipse] [--list | -0] FILE..
       bullseye summary --table TABLE..

Searches each crop file, with room for 400 records, and prints tables. Each kept record of a crop counts as a box, an ellipse too. A crop
is counted by its first record, the best, which is its label; its other boxes are counted among boxes alone.
  Files           how many were searched, refused, and could not be read
  Missed          the missed figures: searched crops without a box, by reason and in all; without a turn (no turn or lost centre), by crops
                  whose first box has none, and by all boxes; and ellipses, by crops whose first record is one, and by all. The reasons:
                  empty (8)      no candidate is found
                  set aside (9)  candidates are found, and none is kept
                  too many (7)   more candidates than 400
  Answer          files by answer
  Outcome         crops by the outcome of their first box, and all boxes by outcome
  Class of crops  crops by class and outcome of their first box
  Class of boxes  all boxes by class and outcome; class 4 are the boxes without a turn and the ellipses together
Above them stands a line where the ellipse check was on, and one where a table has class 0 without a turn.

",
        ellipse_help!(),
        files_help!(),
        "\
A file that is refused or cannot be read is named on standard error, with the reason, and does not end the run.
--table  TABLE.. are tables of `bullseye table` (CSV), - for standard input: the summary of the files in them. In a table of version
         0.1 answer 8 is set aside too: Missed goes by what was found, Answer by the numbers. In one of a version before 0.5
         the class is 0 without a turn: Missed goes by the outcome, Class by the numbers. All tables were made with
         --ellipse, or none of them

Exit status: 0 all files were searched; 1 a file is refused or cannot be read; 2 bad usage, or a table that is none.

Example: bullseye summary examples/*.crop
"
    ),
    run,
};

/// What stands above the tables of a search with the ellipse check.
const CHECKED: &str = "ellipse check: on\n\n";

/// What stands above those of a table of an earlier version.
const EARLIER: &str = "class 0 without a turn: a table of a version before 0.5\n\n";

fn run(args: &[OsString]) -> Result<bool, Problem> {
    let arguments = Arguments::of(args, &[&MANY[..], &["--table", "--ellipse"]].concat())?;
    let mut counts = Counts::default();
    let (good, ellipse) = match arguments.table {
        true => of_tables(&arguments, &mut counts)?,
        false => {
            let inputs = Inputs::of(&arguments)?;
            let good = of_files(&inputs, arguments.ellipse, &mut counts)?;
            (good, arguments.ellipse)
        }
    };
    let setting = if ellipse { CHECKED } else { "" };
    let earlier = if counts.has_earlier() { EARLIER } else { "" };
    print(format!("{setting}{earlier}{}", counts.tables()).as_bytes())?;
    Ok(good)
}

/// Counts files; true when each was searched.
fn of_files(inputs: &Inputs, ellipse: bool, counts: &mut Counts) -> Result<bool, Problem> {
    let progress = Progress::over(inputs, Output::to(None)?);
    files::search_each(inputs, ellipse, progress, |_, seen, _| {
        counts.add(&seen);
        Ok(())
    })
}

/// Counts the files of tables, all made with one setting of the ellipse check. Whether each was searched, and that setting.
fn of_tables(arguments: &Arguments, counts: &mut Counts) -> Result<(bool, bool), Problem> {
    if arguments.list {
        let both = "--table takes tables, no list of crops";
        return Err(Problem::Usage(both.into()));
    }
    if arguments.ellipse {
        let stated = "--ellipse is for crops: a table tells whether it was made with it";
        return Err(Problem::Usage(stated.into()));
    }
    if arguments.files.is_empty() {
        return Err(Problem::Usage("no table is named".into()));
    }
    let mut good = true;
    let mut setting = None;
    for path in &arguments.files {
        let ellipse = table::read(path, |entry| {
            if let Some(complaint) = complaint(&entry.seen) {
                good = false;
                complain(&of_file(&entry.name, &complaint));
            }
            counts.add(&entry.seen);
        })?;
        if *setting.get_or_insert(ellipse) != ellipse {
            return Err(Problem::Trouble(of_file(path, table::BOTH_SETTINGS)));
        }
    }
    Ok((good, setting.unwrap_or_default()))
}
