//! Checks the proved code in crates/: no function takes more than seven arguments, and the table of sines is indexed in one place.
use std::{
    fs,
    path::{Path, PathBuf},
};

const MOST_ARGUMENTS: usize = 7;

/// The files of code under a folder, but for what rt makes in out/.
fn sources(folder: &Path) -> Vec<PathBuf> {
    let list = fs::read_dir(folder).unwrap_or_else(|error| panic!("{}: {error}", folder.display()));
    let mut found = Vec::new();
    for entry in list {
        let path = entry.expect("a folder is listed").path();
        if path.is_dir() {
            if !path.ends_with("out") {
                found.extend(sources(&path));
            }
        } else if path.extension().is_some_and(|ending| ending == "rt") {
            found.push(path);
        }
    }
    found
}

/// Each function of a text with the number of its arguments.
fn functions(text: &str) -> Vec<(&str, usize)> {
    let code = |at: usize| !text[..at].rsplit('\n').next().unwrap_or("").contains("//");
    let starts = text.match_indices("fn ").filter(|&(at, _)| code(at));
    let mut found = Vec::new();
    for (at, item) in starts {
        let rest = &text[at + item.len()..];
        let (head, rest) = rest.split_once('(').expect("a function has arguments");
        let name = head.split('<').next().unwrap_or(head);
        let (arguments, _) = rest.split_once(')').expect("arguments end");
        let count = arguments.split(',').filter(|one| !one.trim().is_empty());
        found.push((name, count.count()));
    }
    found
}

#[test]
fn no_function_takes_more_than_seven_arguments() {
    let host = Path::new(env!("CARGO_MANIFEST_DIR"));
    let crates = host.parent().expect("host/ has a parent").join("crates");
    let mut counted = 0;
    let mut problems = Vec::new();
    for path in sources(&crates) {
        let text = fs::read_to_string(&path).expect("a file of code is text");
        for (name, arguments) in functions(&text) {
            counted += 1;
            if arguments > MOST_ARGUMENTS {
                problems.push(format!("{}: {name} takes {arguments}", path.display()));
            }
        }
    }
    assert!(counted > 100, "only {counted} functions were found");
    assert!(problems.is_empty(), "{}", problems.join("\n"));
}

/// So the calls of `sines::sine` are all its look-ups (tests/once.rs).
#[test]
fn the_table_of_sines_is_indexed_in_one_place() {
    let host = Path::new(env!("CARGO_MANIFEST_DIR"));
    let crates = host.parent().expect("host/ has a parent").join("crates");
    let mut places = Vec::new();
    for path in sources(&crates) {
        let text = fs::read_to_string(&path).expect("a file of code is text");
        for name in ["table[", "SINES["] {
            places.extend(text.matches(name).map(|_| path.clone()));
        }
    }
    assert_eq!(places, [crates.join("sines/src/lib.rt")]);
}

#[test]
fn arguments_are_counted() {
    let text = "// fn none(a, b)\nfn one(\n    a: u8,\n) {}\npub fn two<'a>(x: &'a [u8; 3], y: u8) -> u8 {}\nfn zero() {}\n";
    assert_eq!(functions(text), [("one", 1), ("two", 2), ("zero", 0)]);
}
