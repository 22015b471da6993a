//! The command lines of the programs that try many inputs: options, each with a number.

use std::path::Path;
use std::process::exit;

/// The numbers that follow these names on the command line. Anything else ends the program with its usage.
pub fn numbers<const N: usize>(names: [&str; N]) -> [Option<u64>; N] {
    let mut arguments = std::env::args();
    let path = arguments.next().unwrap_or_default();
    let program = Path::new(&path)
        .file_stem()
        .unwrap_or_default()
        .to_string_lossy();
    let usage = names.map(|name| format!(" [{name} N]")).concat();
    let arguments: Vec<String> = arguments.collect();
    if arguments.iter().any(|word| word == "--help") {
        println!("usage: {program}{usage}");
        exit(0);
    }
    parse(names, &arguments).unwrap_or_else(|problem| {
        eprintln!("{program}: {problem}\nusage: {program}{usage}");
        exit(2)
    })
}

/// The last number of each name, or what is wrong.
fn parse<const N: usize>(names: [&str; N], words: &[String]) -> Result<[Option<u64>; N], String> {
    let mut numbers = [None; N];
    for pair in words.chunks(2) {
        let place = names.iter().position(|name| *name == pair[0]);
        let place = place.ok_or_else(|| format!("unknown option: {}", pair[0]))?;
        let number = pair.get(1).and_then(|word| word.parse().ok());
        numbers[place] = Some(number.ok_or_else(|| format!("{}: no number follows", pair[0]))?);
    }
    Ok(numbers)
}

#[cfg(test)]
mod tests {
    use super::parse;

    fn parsed(words: &[&str]) -> Result<[Option<u64>; 2], String> {
        let words: Vec<String> = words.iter().map(|word| word.to_string()).collect();
        parse(["--seed", "--count"], &words)
    }

    #[test]
    fn names_and_numbers() {
        assert_eq!(parsed(&[]), Ok([None, None]));
        assert_eq!(parsed(&["--count", "7"]), Ok([None, Some(7)]));
        let both = ["--count", "7", "--seed", "1", "--count", "8"];
        assert_eq!(parsed(&both), Ok([Some(1), Some(8)]));
    }

    #[test]
    fn refused_words() {
        for words in [
            &["--depth", "1"][..],
            &["--seed"],
            &["--seed", "x"],
            &["--seed", "-1"],
            &["7"],
        ] {
            assert!(parsed(words).is_err(), "{words:?}");
        }
    }
}
