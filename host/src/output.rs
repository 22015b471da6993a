//! What the program writes: standard output, standard error and a named file. None of it panics on a closed pipe.
use crate::beside::Beside;
use std::{
    ffi::OsStr,
    io::{self, ErrorKind, IsTerminal, Write},
    path::Path,
};

/// Why a command ended early.
pub enum Problem {
    /// Its help was asked for.
    Help,
    /// Its arguments are no use of it.
    Usage(String),
    /// It could not be done, for a reason in words.
    Failed(String),
    /// The same of a command whose status 1 says something else: 2.
    Trouble(String),
    /// Nobody reads its output any longer.
    Closed,
}

/// So many bytes are written at once.
const BLOCK: usize = 1 << 16;

/// Standard output, or a file that appears whole.
pub struct Output {
    to: Option<Beside>,
    /// Not yet written.
    kept: Vec<u8>,
    terminal: bool,
}

impl Output {
    /// The file that `-o` names, or standard output.
    pub fn to(path: Option<&OsStr>) -> Result<Self, Problem> {
        let to = match path {
            None => None,
            Some(path) => Some(Beside::of(path).map_err(|error| failed(path, &error))?),
        };
        Ok(Output {
            terminal: to.is_none() && io::stdout().is_terminal(),
            to,
            kept: Vec::new(),
        })
    }

    pub fn is_terminal(&self) -> bool {
        self.terminal
    }

    pub fn write(&mut self, bytes: &[u8]) -> Result<(), Problem> {
        self.kept.extend(bytes);
        match self.terminal || self.kept.len() >= BLOCK {
            true => self.flush(),
            false => Ok(()),
        }
    }

    pub fn flush(&mut self) -> Result<(), Problem> {
        match &mut self.to {
            None => print(&self.kept)?,
            Some(file) => file
                .write(&self.kept)
                .map_err(|error| failed(file.path(), &error))?,
        }
        self.kept.clear();
        Ok(())
    }

    /// Writes what is left; a named file takes its place now.
    pub fn finish(mut self) -> Result<(), Problem> {
        self.flush()?;
        match self.to {
            None => Ok(()),
            Some(file) => {
                let path = file.path().to_owned();
                file.finish().map_err(|error| failed(&path, &error))
            }
        }
    }
}

/// Writes to standard output at once.
pub fn print(bytes: &[u8]) -> Result<(), Problem> {
    let mut out = io::stdout().lock();
    out.write_all(bytes)
        .and_then(|()| out.flush())
        .map_err(|error| match error.kind() {
            ErrorKind::BrokenPipe => Problem::Closed,
            _ => Problem::Failed(format!("standard output: {}", reason(&error))),
        })
}

/// Writes to the file that `-o` names, or to standard output.
pub fn deliver(bytes: &[u8], path: Option<&OsStr>) -> Result<(), Problem> {
    let mut output = Output::to(path)?;
    output.write(bytes)?;
    output.finish()
}

/// Writes a line to standard error; a line that cannot be written is lost.
pub fn complain(text: &str) {
    let _ = io::stderr().write_all(format!("bullseye: {text}\n").as_bytes());
}

/// A file that cannot be read or written.
pub fn failed(path: &OsStr, error: &io::Error) -> Problem {
    Problem::Failed(of_file(path, &reason(error)))
}

/// A complaint about a file, on one line: control characters of its name are not shown.
pub fn of_file(path: &OsStr, reason: &str) -> String {
    let name = Path::new(path).display().to_string();
    let name = name.replace(char::is_control, "\u{fffd}");
    format!("{name}: {reason}")
}

/// What ends a line about searches that had the ellipse check.
pub fn with_ellipse(ellipse: bool) -> &'static str {
    match ellipse {
        true => ", with --ellipse",
        false => "",
    }
}

/// An error of the system, in words.
pub fn reason(error: &io::Error) -> String {
    match error.kind() {
        ErrorKind::NotFound => "no such file".into(),
        ErrorKind::PermissionDenied => "permission denied".into(),
        ErrorKind::IsADirectory => "a folder, not a file".into(),
        ErrorKind::NotADirectory => "a part of its path is not a folder".into(),
        ErrorKind::StorageFull => "no space left".into(),
        _ => error.to_string(),
    }
}
