//! Many crops, changed and written into a folder, each only when its search says the same before and after.
use super::Searched;
use crate::{
    beside::Beside,
    files,
    inputs::{Input, Inputs},
    output::{Output, Problem, failed, of_file, print, reason},
    progress::Progress,
};
use crops::Unknown;
use std::{
    collections::HashMap,
    ffi::OsStr,
    fs, io,
    path::{Path, PathBuf},
};

/// A crop that a command changed.
pub struct Changed<T> {
    pub file: Vec<u8>,
    /// Whether the searches before and after agree.
    pub agrees: bool,
    /// What the command says of it, in words.
    pub words: String,
    /// What the command adds up.
    pub sums: T,
}

/// What became of a crop that could be read.
enum Made<T> {
    /// Written where the searches agree.
    Changed(bool, String, T),
    Refused(String),
    /// Changed, but not written, with the reason.
    Unwritten(String),
}

/// Searches each crop, with the ellipse check or without, and writes it changed into the folder, with a line for each; what is to be added
/// up goes to `add`.
pub fn run<T: Send>(
    inputs: &Inputs,
    ellipse: bool,
    folder: &OsStr,
    change: impl Fn(Searched) -> Result<Changed<T>, Unknown> + Sync,
    mut add: impl FnMut(T),
) -> Result<Total, Problem> {
    let places = places(inputs, Path::new(folder))?;
    fs::create_dir_all(folder).map_err(|error| failed(folder, &error))?;
    let mut total = Total::default();
    let make = |input: &Input, file: &[u8]| {
        let searched = Searched::of_file(file, ellipse)?;
        make(searched, &places[&input.below], &change)
    };
    let progress = Progress::over(inputs, Output::to(None)?);
    files::each(inputs, progress, make, |input, made, progress| {
        let (line, complaint) = total.add(made, &mut add);
        if let Some(line) = line {
            let name = input.path.as_encoded_bytes();
            progress.print(&[name, b": ", line.as_bytes(), b"\n"].concat())?;
        }
        if let Some(complaint) = complaint {
            progress.complain(&input.path, &complaint)?;
        }
        Ok(())
    })?;
    Ok(total)
}

/// Where each crop is written, by its name below the folder; two of one name are a mistake.
fn places(inputs: &Inputs, folder: &Path) -> Result<HashMap<PathBuf, PathBuf>, Problem> {
    let mut places = HashMap::new();
    for input in inputs.all.iter().filter(|input| input.problem.is_none()) {
        if input.path == "-" {
            let nameless = "-: standard input has no name to write to a folder";
            return Err(Problem::Usage(nameless.into()));
        }
        let place = folder.join(&input.below);
        if places.insert(input.below.clone(), place.clone()).is_some() {
            let words = "two crops would be written there";
            return Err(Problem::Failed(of_file(place.as_os_str(), words)));
        }
    }
    Ok(places)
}

/// Changes a crop that was searched, unless it was refused, and writes it to its place where the searches agree.
fn make<T>(
    searched: Result<Searched, String>,
    place: &Path,
    change: &impl Fn(Searched) -> Result<Changed<T>, Unknown>,
) -> Result<Made<T>, Unknown> {
    let changed = match searched {
        Ok(searched) => change(searched)?,
        Err(refusal) => return Ok(Made::Refused(refusal)),
    };
    if changed.agrees
        && let Err(error) = write(place, &changed.file)
    {
        let problem = of_file(place.as_os_str(), &reason(&error));
        return Ok(Made::Unwritten(problem));
    }
    Ok(Made::Changed(changed.agrees, changed.words, changed.sums))
}

fn write(place: &Path, file: &[u8]) -> io::Result<()> {
    if let Some(folder) = place.parent() {
        fs::create_dir_all(folder)?;
    }
    let mut beside = Beside::of(place.as_os_str())?;
    beside.write(file)?;
    beside.finish()
}

/// How many crops ended how.
#[derive(Default)]
pub struct Total {
    agree: usize,
    differ: usize,
    refused: usize,
    unread: usize,
    unwritten: usize,
}

impl Total {
    /// Counts a crop; what standard output and standard error say of it.
    fn add<T>(
        &mut self,
        made: Result<Made<T>, String>,
        sum: &mut impl FnMut(T),
    ) -> (Option<String>, Option<String>) {
        match made {
            Ok(Made::Changed(agrees, words, sums)) => {
                match agrees {
                    true => self.agree += 1,
                    false => self.differ += 1,
                }
                sum(sums);
                (Some(words), None)
            }
            Ok(Made::Refused(refusal)) => {
                self.refused += 1;
                (None, Some(refusal))
            }
            Ok(Made::Unwritten(problem)) => {
                self.unwritten += 1;
                (None, Some(problem))
            }
            Err(problem) => {
                self.unread += 1;
                (None, Some(problem))
            }
        }
    }

    fn all(&self) -> usize {
        self.agree + self.differ + self.refused + self.unread + self.unwritten
    }

    /// Prints the last line, which ends with what the command added up; true when all crops are written.
    pub fn print(&self, sums: &str) -> Result<bool, Problem> {
        let line = format!(
            "total {}: agree {}, differ {}, refused {}, not read {}, not written {}; {sums}\n",
            self.all(),
            self.agree,
            self.differ,
            self.refused,
            self.unread,
            self.unwritten,
        );
        print(line.as_bytes())?;
        Ok(self.agree == self.all())
    }
}

#[cfg(test)]
mod tests {
    use super::*;
    use std::{env, process};

    /// Whether a crop is written whose searches agree or do not, and what is counted.
    fn written(agrees: bool) -> (bool, usize, usize) {
        let place = env::temp_dir().join(format!("bullseye-folder-{agrees}-{}", process::id()));
        let mut crop = vec![0x10, 0x21, 0x02, 0x10];
        crop.resize(169, 0);
        let change = |_: Searched| {
            Ok(Changed {
                file: crop.clone(),
                agrees,
                words: String::new(),
                sums: (),
            })
        };
        let searched = Searched::of_file(&crop, false).expect("a known answer");
        let made = make(searched, &place, &change).expect("a known answer");
        let mut total = Total::default();
        total.add(Ok(made), &mut |()| ());
        (fs::remove_file(&place).is_ok(), total.agree, total.differ)
    }

    #[test]
    fn a_crop_whose_searches_differ_is_not_written() {
        assert_eq!(written(true), (true, 1, 0));
        assert_eq!(written(false), (false, 0, 1));
    }
}
