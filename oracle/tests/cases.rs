//! The stored cases: the judge and the second reading give the right sides that stand there.

use std::collections::BTreeSet;
use std::fs;

use crops::cases::{Call, Entries, Image, Stock, compared};
use oracle::cases::{SECOND, made};
use oracle::generate::CellCoverage;
use oracle::second;

fn stored(name: &str) -> String {
    let path = format!("{}/cases/{name}", env!("CARGO_MANIFEST_DIR"));
    fs::read_to_string(&path).unwrap_or_else(|error| panic!("{path}: {error}"))
}

/// No line differs by these entries.
fn passes(entries: &Entries) {
    let stock = Stock::parse(&stored("crops.txt")).unwrap_or_else(|problem| panic!("{problem}"));
    let verdict = compared(&stored("cases.txt"), &stock, entries, |line, seen| {
        println!("{line}\n| seen {seen}");
    });
    let verdict = verdict.unwrap_or_else(|problem| panic!("{problem}"));
    assert_eq!((verdict.failed, verdict.skipped), (0, 0), "{verdict}");
    assert!(verdict.passed > 3_500, "{verdict}");
}

#[test]
fn second_reading() {
    passes(&SECOND);
}

#[cfg(source)]
#[test]
fn source() {
    passes(&oracle::cases::JUDGE.expect("the source is here"));
}

/// The left sides of a text.
fn lefts(text: &str) -> Vec<&str> {
    let left = |line| str::split(line, " => ").next().unwrap_or_default();
    text.lines().map(left).collect()
}

#[test]
fn left_sides_are_those_that_are_made() {
    let (crops, lines) = made(0, 3_000);
    assert_eq!(crops, stored("crops.txt"));
    assert_eq!(lefts(&lines), lefts(&stored("cases.txt")));
}

/// Each entry comes to each of its answers, a search with the ellipse check and without.
#[test]
fn all_answers_are_there() {
    let text = stored("cases.txt");
    let mut seen = BTreeSet::new();
    for line in text.lines().filter(|line| !line.starts_with('#')) {
        let (left, right) = line.split_once(" => answer=").expect("an answer");
        Call::parse(left).unwrap_or_else(|problem| panic!("{line}: {problem}"));
        let mut entry: Vec<&str> = left.split(['=', ' ']).take(2).collect();
        if left.ends_with(" ellipse=1") {
            entry.push("ellipse");
        }
        let answer: u32 = right.split(' ').next().unwrap_or_default().parse().unwrap();
        seen.insert((entry.join(" "), answer));
    }
    let entries = [
        ("host file", 0..=5),
        ("program file", 0..=5),
        ("program file", 7..=9),
        ("unpack file", 0..=6),
        ("search file", 0..=9),
        ("search words", 2..=9),
        ("search file ellipse", 0..=9),
        ("search words ellipse", 0..=0),
        ("search words ellipse", 2..=9),
        ("cells file", 0..=6),
        ("cells file", 10..=10),
        ("cells words", 0..=0),
        ("cells words", 2..=6),
        ("cells words", 10..=10),
    ];
    for (entry, answers) in entries {
        for answer in answers {
            let pair = (entry.to_string(), answer);
            assert!(seen.contains(&pair), "{entry} with answer {answer}");
        }
    }
}

/// The rectangles of the crops that cells are read of have every row of their table.
#[test]
fn all_rectangles_are_there() {
    let stock = Stock::parse(&stored("crops.txt")).unwrap_or_else(|problem| panic!("{problem}"));
    let mut coverage = CellCoverage::default();
    for line in stored("cases.txt").lines() {
        let (left, right) = line.split_once(" => answer=").unwrap_or_default();
        let Ok(Call::Cells { image, .. }) = Call::parse(left) else {
            continue;
        };
        let answer = right.split(' ').next().unwrap_or_default();
        coverage.add(answer.parse().expect("an answer"));
        if let (Image::File { file, .. }, "0") = (image, answer) {
            let (words, width, height) = stock.image(&file.id).expect("a crop");
            let rectangle =
                second::enclosing_rectangle(&words, width, height).expect("a black pixel");
            coverage.add_rectangle(width, height, rectangle);
        }
    }
    let missing = coverage.missing();
    assert!(missing.is_empty(), "{missing:?}");
}
