//! Makes left sides of cases and the crops that they name, from a seed on.
//!
//! usage: lefts CROPS LEFTS [--seed S] [--seeds N]

use std::fs;
use std::process::ExitCode;

const USAGE: &str = "usage: lefts CROPS LEFTS [--seed S] [--seeds N]";

/// The two files, the first seed, and how many seeds are looked at.
fn plan(words: &[String]) -> Option<(&str, &str, u64, u64)> {
    let [crops, lefts, options @ ..] = words else {
        return None;
    };
    let (mut seed, mut seeds) = (0, 3_000);
    for pair in options.chunks(2) {
        let number = pair.get(1)?.parse().ok()?;
        match pair[0].as_str() {
            "--seed" => seed = number,
            "--seeds" => seeds = number,
            _ => return None,
        }
    }
    Some((crops, lefts, seed, seeds))
}

fn main() -> ExitCode {
    let words: Vec<String> = std::env::args().skip(1).collect();
    let Some((crops, lefts, seed, seeds)) = plan(&words) else {
        eprintln!("{USAGE}");
        return ExitCode::from(2);
    };
    let (crop_lines, left_lines) = oracle::cases::made(seed, seeds);
    for (path, text) in [(crops, crop_lines), (lefts, left_lines)] {
        if let Err(error) = fs::write(path, &text) {
            eprintln!("lefts: {path}: {error}");
            return ExitCode::FAILURE;
        }
        println!("{path}: {} lines", text.lines().count());
    }
    ExitCode::SUCCESS
}
