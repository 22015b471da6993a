//! Which files a command is to read: names, folders, and a list on standard input.
use crate::{
    arguments::Arguments,
    output::{Problem, reason},
};
use std::{
    ffi::{OsStr, OsString},
    fs, io,
    io::Read,
    os::unix::ffi::OsStringExt,
    path::{Path, PathBuf},
};

/// A file to read.
pub struct Input {
    /// As it is opened and shown.
    pub path: OsString,
    /// Its name below the folder that was given, or its own.
    pub below: PathBuf,
    /// Why there is nothing to read, where it is known before.
    pub problem: Option<String>,
}

/// The files of a run, in its order.
pub struct Inputs {
    pub all: Vec<Input>,
    /// One file was named, and no folder or list.
    pub single: bool,
}

impl Inputs {
    /// The named files, those of named folders, then those of the list.
    pub fn of(arguments: &Arguments) -> Result<Self, Problem> {
        let mut names = arguments.files.clone();
        if arguments.list {
            if names.iter().any(|name| name == "-") {
                let both = "standard input cannot be a list of names and a file";
                return Err(Problem::Usage(both.into()));
            }
            names.extend(listed(arguments.zero)?);
        } else if names.is_empty() {
            return Err(Problem::Usage("no file is named".into()));
        }
        let single = !arguments.list && names.len() == 1 && !Path::new(&names[0]).is_dir();
        let mut all = Vec::new();
        for name in names {
            match Path::new(&name).is_dir() {
                true => all.extend(of_folder(&name)),
                false => all.push(file(name)),
            }
        }
        Ok(Inputs { all, single })
    }

    /// What stands before a file's lines: its name, where there are several.
    pub fn heading(&self, input: &Input) -> Vec<u8> {
        match self.single {
            true => Vec::new(),
            false => [input.path.as_encoded_bytes(), b":\n"].concat(),
        }
    }
}

/// A file that was named itself.
fn file(path: OsString) -> Input {
    let own = Path::new(&path).file_name().map(PathBuf::from);
    Input {
        below: own.unwrap_or_default(),
        path,
        problem: None,
    }
}

/// The names on standard input, one to a line, or parted by zero bytes.
fn listed(zero: bool) -> Result<Vec<OsString>, Problem> {
    let mut bytes = Vec::new();
    if let Err(error) = io::stdin().read_to_end(&mut bytes) {
        let why = format!("standard input: {}", reason(&error));
        return Err(Problem::Failed(why));
    }
    let end = if zero { 0 } else { b'\n' };
    let names = bytes.split(|&byte| byte == end);
    let names = names.filter(|name| !name.is_empty());
    Ok(names
        .map(|name| OsString::from_vec(name.to_vec()))
        .collect())
}

/// All files of a folder and of the folders in it; a folder without any is told.
fn of_folder(folder: &OsStr) -> Vec<Input> {
    let mut found = Vec::new();
    walk(Path::new(folder), Path::new(""), &mut found);
    if found.is_empty() {
        found.push(problem(Path::new(folder), "a folder without files"));
    }
    found
}

fn problem(path: &Path, reason: &str) -> Input {
    Input {
        path: path.into(),
        below: PathBuf::new(),
        problem: Some(reason.into()),
    }
}

/// Adds a folder's files in the order of their names. Names that begin with a dot, and what is neither a file nor a folder, are left out;
/// a link to a folder is not followed, since it may lead in a circle.
fn walk(folder: &Path, below: &Path, found: &mut Vec<Input>) {
    let listing = fs::read_dir(folder).and_then(|list| list.collect::<io::Result<Vec<_>>>());
    let mut entries = match listing {
        Ok(entries) => entries,
        Err(error) => return found.push(problem(folder, &reason(&error))),
    };
    entries.sort_by_key(|entry| entry.file_name());
    for entry in entries {
        let name = entry.file_name();
        if name.as_encoded_bytes().starts_with(b".") {
            continue;
        }
        let (path, below) = (folder.join(&name), below.join(&name));
        let linked = entry.file_type().is_ok_and(|kind| kind.is_symlink());
        match fs::metadata(&path) {
            Ok(kind) if kind.is_dir() && !linked => walk(&path, &below, found),
            Ok(kind) if !kind.is_file() => (),
            Ok(_) => found.push(Input {
                path: path.into(),
                below,
                problem: None,
            }),
            Err(error) => found.push(problem(&path, &reason(&error))),
        }
    }
}
