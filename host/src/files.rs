//! Reads the files that are named, one or many; `-` is standard input.
use crate::{
    inputs::{Input, Inputs},
    output::{Output, Problem, failed, of_file, reason},
    parallel,
    progress::Progress,
    run::{self, Seen},
};
use crops::Unknown;
use std::{
    ffi::OsStr,
    fs::File,
    io::{self, Read},
};

/// A file's first bytes, so many at most.
pub fn read_some(path: &OsStr, most: usize) -> io::Result<Vec<u8>> {
    let mut bytes = Vec::new();
    match path == "-" {
        true => io::stdin().take(most as u64).read_to_end(&mut bytes)?,
        false => File::open(path)?
            .take(most as u64)
            .read_to_end(&mut bytes)?,
    };
    Ok(bytes)
}

/// A crop file's bytes, or as many of a longer one as decide its number.
fn read(path: &OsStr) -> io::Result<Vec<u8>> {
    read_some(path, crops::LONGEST)
}

/// A crop file's bytes, or why the command cannot have them.
pub fn read_one(path: &OsStr) -> Result<Vec<u8>, Problem> {
    read(path).map_err(|error| failed(path, &error))
}

/// The bytes of an input, or in words why there are none.
fn bytes(input: &Input) -> Result<Vec<u8>, String> {
    match &input.problem {
        Some(problem) => Err(problem.clone()),
        None => read(&input.path).map_err(|error| reason(&error)),
    }
}

/// What a command makes of a file, or in words why it could not be read.
type Made<T> = Result<T, String>;

/// Works on each file's bytes, in all threads, and hands what is made of them to `take` in the order of the files. A number that the
/// tables do not have ends the run.
pub fn each<T: Send>(
    inputs: &Inputs,
    mut progress: Progress,
    work: impl Fn(&Input, &[u8]) -> Result<T, Unknown> + Sync,
    mut take: impl FnMut(&Input, Made<T>, &mut Progress) -> Result<(), Problem>,
) -> Result<(), Problem> {
    let all = &inputs.all;
    let made = |at: usize| -> Result<Made<T>, Unknown> {
        match bytes(&all[at]) {
            Ok(file) => work(&all[at], &file).map(Ok),
            Err(problem) => Ok(Err(problem)),
        }
    };
    parallel::in_order(all.len(), made, |at, made| {
        let unknown = |unknown: Unknown| of_file(&all[at].path, &unknown.to_string());
        let made = made.map_err(|error| Problem::Failed(unknown(error)))?;
        progress.show(at);
        take(&all[at], made, &mut progress)
    })?;
    progress.finish()
}

/// What a command says of one file.
pub struct Said {
    /// For standard output.
    pub text: Vec<u8>,
    /// For standard error, in words.
    pub complaint: Option<String>,
    /// Whether the file was as it should be.
    pub good: bool,
}

/// Prints what a command says of each file; one that cannot be read is named, and the run goes on. True when each was as it should be.
pub fn say_each(
    inputs: &Inputs,
    say: impl Fn(&Input, &[u8]) -> Result<Said, Unknown> + Sync,
) -> Result<bool, Problem> {
    let mut good = true;
    let progress = Progress::over(inputs, Output::to(None)?);
    each(inputs, progress, say, |input, said, progress| {
        let said = said.unwrap_or_else(|problem| Said {
            text: Vec::new(),
            complaint: Some(problem),
            good: false,
        });
        good &= said.good;
        progress.print(&said.text)?;
        match said.complaint {
            None => Ok(()),
            Some(complaint) => progress.complain(&input.path, &complaint),
        }
    })?;
    Ok(good)
}

/// Searches each file, with the ellipse check or without, and hands what was seen to `take`, after what is refused or cannot be read has
/// been named. True when each was searched.
pub fn search_each(
    inputs: &Inputs,
    ellipse: bool,
    progress: Progress,
    mut take: impl FnMut(&OsStr, Made<Seen>, &mut Progress) -> Result<(), Problem>,
) -> Result<bool, Problem> {
    let mut good = true;
    let search = |_: &Input, file: &[u8]| run::search(file, ellipse).map(|run| run.seen);
    each(inputs, progress, search, |input, seen, progress| {
        if let Some(complaint) = run::complaint(&seen) {
            good = false;
            progress.complain(&input.path, &complaint)?;
        }
        take(&input.path, seen, progress)
    })?;
    Ok(good)
}
