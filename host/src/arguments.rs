//! A command's arguments: its files and its options.
use crate::output::Problem;
use std::{ffi::OsString, slice};

/// Files, and the options that a command takes.
#[derive(Default)]
pub struct Arguments {
    pub files: Vec<OsString>,
    pub output: Option<OsString>,
    pub plain: bool,
    /// More names are on standard input,
    pub list: bool,
    /// parted by zero bytes.
    pub zero: bool,
    pub json: bool,
    pub hex: bool,
    pub svg: bool,
    pub table: bool,
    pub least: bool,
    pub redacted: bool,
    pub check: bool,
    pub write: bool,
    pub ellipse: bool,
}

/// The options of a command that reads many files.
pub const MANY: [&str; 2] = ["--list", "-0"];

impl Arguments {
    /// Parts the arguments; an option that is not among those that the command takes is a mistake. `--` ends the options.
    pub fn of(args: &[OsString], takes: &[&str]) -> Result<Self, Problem> {
        let mut parsed = Arguments::default();
        let mut rest = args.iter();
        while let Some(arg) = rest.next() {
            match arg.to_str() {
                Some("--") => parsed.files.extend(rest.by_ref().cloned()),
                Some("--help" | "-h") => return Err(Problem::Help),
                Some(word) if takes.contains(&word) => parsed.option(word, &mut rest)?,
                _ if is_option(arg) => {
                    return Err(Problem::Usage(format!("unknown option: {}", arg.display())));
                }
                _ => parsed.files.push(arg.clone()),
            }
        }
        Ok(parsed)
    }

    fn option(&mut self, word: &str, rest: &mut slice::Iter<'_, OsString>) -> Result<(), Problem> {
        match word {
            "-o" => return named(&mut self.output, rest),
            "--plain" => self.plain = true,
            "--list" => self.list = true,
            "-0" => (self.list, self.zero) = (true, true),
            "--json" => self.json = true,
            "--hex" => self.hex = true,
            "--svg" => self.svg = true,
            "--table" => self.table = true,
            "--least" => self.least = true,
            "--redacted" => self.redacted = true,
            "--check" => self.check = true,
            "--write" => self.write = true,
            "--ellipse" => self.ellipse = true,
            _ => unreachable!("a command takes {word}, which has no meaning"),
        }
        Ok(())
    }

    /// Just one file, and the options.
    pub fn one(mut self) -> Result<(OsString, Self), Problem> {
        match (self.files.pop(), self.files.is_empty()) {
            (Some(file), true) => Ok((file, self)),
            (Some(_), false) => Err(Problem::Usage("more than one file is named".into())),
            (None, _) => Err(Problem::Usage("no file is named".into())),
        }
    }
}

fn is_option(arg: &OsString) -> bool {
    arg != "-" && arg.as_encoded_bytes().starts_with(b"-")
}

/// The file after `-o`, once.
fn named(
    output: &mut Option<OsString>,
    rest: &mut slice::Iter<'_, OsString>,
) -> Result<(), Problem> {
    let Some(file) = rest.next() else {
        return Err(Problem::Usage("-o names no file".into()));
    };
    match output.replace(file.clone()) {
        None => Ok(()),
        Some(_) => Err(Problem::Usage("-o is given twice".into())),
    }
}

/// The arguments of a command that takes just one file.
pub fn one(args: &[OsString], takes: &[&str]) -> Result<(OsString, Arguments), Problem> {
    Arguments::of(args, takes)?.one()
}
