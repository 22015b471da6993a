//! Runs cases by the judge: prints the lines whose right side differs, or with `--write` all lines with right sides as the judge has them.
//!
//! usage: cases [--write] [--second] CROPS CASES

use std::fs;
use std::io::{Write, stdout};
use std::process::ExitCode;

use crops::cases::{Entries, Stock, compared, written};
use oracle::cases::{JUDGE, SECOND};

const USAGE: &str = "usage: cases [--write] [--second] CROPS CASES
Runs the calls of CASES on the crops of CROPS by the judge: prints each line whose right side differs with what was seen, then
the counts. Exit status 1 when a line differs, 2 when a line is no case.
--write   prints CASES again with the right sides as seen
--second  by the second reading, which needs no source";

fn main() -> ExitCode {
    let words: Vec<String> = std::env::args().skip(1).collect();
    let (options, files): (Vec<&str>, Vec<&str>) = (words.iter())
        .map(String::as_str)
        .partition(|word| word.starts_with("--"));
    let unknown = |word: &&str| !["--write", "--second"].contains(word);
    let ([crops, cases], false) = (&files[..], options.iter().any(unknown)) else {
        eprintln!("{USAGE}");
        return ExitCode::from(2);
    };
    let entries = match options.contains(&"--second") {
        true => Some(SECOND),
        false => JUDGE,
    };
    let Some(entries) = entries else {
        eprintln!(
            "cases: built without the source; set ORACLE_SOURCE to its folder, or say --second"
        );
        return ExitCode::from(2);
    };
    let (text, status) =
        ran(crops, cases, &entries, options.contains(&"--write")).unwrap_or_else(|problem| {
            eprintln!("cases: {problem}");
            (String::new(), 2)
        });
    match stdout().write_all(text.as_bytes()) {
        Ok(()) => ExitCode::from(status),
        Err(_) => ExitCode::from(2),
    }
}

/// What is printed, and the exit status.
fn ran(crops: &str, cases: &str, entries: &Entries, write: bool) -> Result<(String, u8), String> {
    let read = |path: &str| fs::read_to_string(path).map_err(|error| format!("{path}: {error}"));
    let stock = Stock::parse(&read(crops)?).map_err(|problem| format!("{crops}: {problem}"))?;
    let text = read(cases)?;
    let wrong = |problem| format!("{cases}: {problem}");
    if write {
        let text = written(&text, &stock, entries).map_err(wrong)?;
        return Ok((text, 0));
    }
    let mut printed = String::new();
    let verdict = compared(&text, &stock, entries, |line, seen| {
        printed += &format!("{line}\n| seen {seen}\n");
    });
    let verdict = verdict.map_err(wrong)?;
    let status = u8::from(verdict.failed > 0);
    Ok((format!("{printed}{verdict}\n"), status))
}
