//! The header's constants against the Rust side's tables and the constants in the proved code's text.
use super::repository;
use std::{collections::BTreeMap, fs, path::PathBuf};

/// A constant of the header: its number, and the comment beside it.
pub struct Constant {
    pub number: usize,
    comment: String,
}

/// The header's constants by name, without their first word.
pub fn header() -> BTreeMap<String, Constant> {
    let path = repository().join("include/maxicode.h");
    let text = fs::read_to_string(path).expect("the header is there");
    let lines = text
        .lines()
        .filter_map(|line| line.strip_prefix("#define MAXICODE_"));
    lines.filter_map(constant).collect()
}

/// `NAME NUMBER /* comment */`; the guard has no number.
fn constant(line: &str) -> Option<(String, Constant)> {
    let (name, rest) = line.split_once(' ')?;
    let (number, comment) = rest.split_once("/*").expect("a constant has its comment");
    let number = number.trim().parse().expect("a constant is a number");
    let comment = comment.trim_end_matches("*/").trim().to_string();
    Some((name.to_string(), Constant { number, comment }))
}

/// The constants whose names begin with a word, without it.
fn group(word: &str) -> BTreeMap<String, Constant> {
    let named = |(name, constant): (String, Constant)| {
        Some((name.strip_prefix(word)?.to_string(), constant))
    };
    header().into_iter().filter_map(named).collect()
}

#[test]
fn answers_are_those_of_the_table() {
    let stated: BTreeMap<usize, String> = group("ANSWER_")
        .into_values()
        .map(|answer| (answer.number, answer.comment))
        .collect();
    let blank = crops::cells_meaning(crops::BLANK).expect("an answer of cells");
    let table = crops::ANSWERS.iter();
    let known = table.map(|answer| (answer.number, answer.meaning));
    let known = known.chain([(crops::BLANK, blank)]);
    let known = known.map(|(number, meaning)| (number as usize, meaning.to_string()));
    assert_eq!(stated, known.collect());
    assert_eq!(group("ANSWER_").len(), stated.len());
}

#[test]
fn fields_are_those_of_the_record() {
    let stated = group("FIELD_");
    for field in crops::FIELDS {
        let found = stated.get(field.name).map(|field| field.number);
        assert_eq!(found, Some(field.place), "{}", field.name);
    }
    assert_eq!(stated.len(), crops::FIELDS.len());
}

#[test]
fn outcomes_are_those_of_the_table() {
    let stated: BTreeMap<usize, String> = group("OUTCOME_")
        .into_values()
        .map(|outcome| (outcome.number, outcome.comment))
        .collect();
    let known = crops::Outcome::ALL.map(|o| (o.number() as usize, o.words().to_string()));
    assert_eq!(stated, BTreeMap::from(known));
}

#[test]
fn sizes_are_those_of_the_rust_side() {
    let known = BTreeMap::from([
        ("HEADER_BYTES", crops::HEADER_BYTES),
        ("WORD_BITS", crops::WORD_BITS),
        ("LEAST_SIDE", crops::LEAST_SIDE as usize),
        ("GREATEST_SIDE", crops::GREATEST_SIDE as usize),
        ("MOST_WORDS", crops::MOST_WORDS),
        ("LONGEST", crops::LONGEST),
        ("RECORD_WORDS", crops::RECORD_WORDS),
        ("MOST_CANDIDATES", crops::MOST_CANDIDATES),
        ("RECORDS", crops::RECORDS),
        ("REPORT_BYTES", crops::REPORT_BYTES),
        ("RECORD_BYTES", crops::RECORD_BYTES),
        ("CLASSES", crops::CLASSES as usize),
        ("CLASS_WITHOUT_TURN", crops::CLASS_WITHOUT_TURN as usize),
        ("CELL_ROWS", crops::CELL_ROWS),
        ("CELL_COLUMNS", crops::CELL_COLUMNS),
        ("KIND", usize::from(crops::pack(&[], 33, 33)[0] >> 4)),
    ]);
    let groups = ["ANSWER_", "FIELD_", "OUTCOME_"];
    let mut stated = header();
    stated.retain(|name, _| !groups.iter().any(|group| name.starts_with(group)));
    let stated: BTreeMap<&str, usize> = stated
        .iter()
        .map(|(name, size)| (name.as_str(), size.number))
        .collect();
    assert_eq!(stated, known);
}

/// Every `const NAME: TYPE = NUMBER;` of the proved code, with the numbers that it has.
fn proved_constants() -> BTreeMap<String, Vec<usize>> {
    let mut found: BTreeMap<String, Vec<usize>> = BTreeMap::new();
    for text in proved_code() {
        for line in text.lines() {
            let line = line.trim().trim_start_matches("pub ");
            let item = line
                .strip_prefix("const ")
                .and_then(|item| item.split_once(':'));
            let number = |rest: &str| rest.split_once("= ")?.1.strip_suffix(';')?.parse().ok();
            if let Some((name, number)) = item.and_then(|(name, rest)| Some((name, number(rest)?)))
            {
                found.entry(name.to_string()).or_default().push(number);
            }
        }
    }
    found
}

/// The texts of crates/*/src/*.rt.
fn proved_code() -> Vec<String> {
    let list = |folder: PathBuf| fs::read_dir(folder).into_iter().flatten().flatten();
    let crates = list(repository().join("crates"));
    let files = crates.flat_map(|folder| list(folder.path().join("src")));
    let paths = files.map(|file| file.path());
    let code = paths.filter(|path| path.extension().is_some_and(|ending| ending == "rt"));
    code.map(|path| fs::read_to_string(path).expect("code is text"))
        .collect()
}

/// The fields, the kind and the least side are constants of the proved code; the other sizes are held to what it answers.
#[test]
fn constants_are_those_of_the_proved_code() {
    let proved = proved_constants();
    let fields = group("FIELD_").into_iter();
    let mut stated: Vec<(String, usize)> = fields.map(|(name, at)| (name, at.number)).collect();
    let header = header();
    stated.push(("KIND".into(), header["KIND"].number));
    stated.push(("LEAST".into(), header["LEAST_SIDE"].number));
    for (name, number) in stated {
        let found = proved.get(&name);
        let found = found.unwrap_or_else(|| panic!("no constant {name} in crates/*/src/*.rt"));
        assert!(
            found.iter().all(|&one| one == number),
            "{name} is {number} in the header, {found:?} in crates/*/src/*.rt"
        );
    }
}
