//! The line on a terminal that says how far a run is, and what is printed beside it.
use crate::{
    inputs::Inputs,
    output::{Output, Problem, complain, of_file},
};
use std::{
    ffi::OsStr,
    io::{self, IsTerminal, Write},
    time::{Duration, Instant},
};

/// The output of a run over many files, with its progress on standard error.
pub struct Progress {
    total: usize,
    output: Output,
    wanted: bool,
    shown: bool,
    last: Option<Instant>,
}

impl Progress {
    /// Shown for many files, when standard error is a terminal.
    pub fn over(inputs: &Inputs, output: Output) -> Self {
        let total = inputs.all.len();
        Progress {
            total,
            output,
            wanted: total > 1 && io::stderr().is_terminal(),
            shown: false,
            last: None,
        }
    }

    /// Writes the line again, ten times a second at most.
    pub fn show(&mut self, done: usize) {
        let early = |last: Instant| last.elapsed() < Duration::from_millis(100);
        if !self.wanted || self.last.is_some_and(early) {
            return;
        }
        let line = format!("\r\x1b[Kbullseye: {done} of {} files", self.total);
        let _ = io::stderr().write_all(line.as_bytes());
        self.shown = true;
        self.last = Some(Instant::now());
    }

    /// Prints text; on a terminal it takes the line's place.
    pub fn print(&mut self, text: &[u8]) -> Result<(), Problem> {
        if self.output.is_terminal() && !text.is_empty() {
            self.clear();
        }
        self.output.write(text)
    }

    /// Names a file and what is wrong with it, after all that was printed before.
    pub fn complain(&mut self, path: &OsStr, words: &str) -> Result<(), Problem> {
        self.output.flush()?;
        self.clear();
        complain(&of_file(path, words));
        Ok(())
    }

    /// Ends the line, and the output.
    pub fn finish(mut self) -> Result<(), Problem> {
        self.clear();
        self.output.finish()
    }

    fn clear(&mut self) {
        if self.shown {
            let _ = io::stderr().write_all(b"\r\x1b[K");
            self.shown = false;
        }
    }
}
