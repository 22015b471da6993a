//! Texts of cases, run through entries that are easily foreseen.

use super::*;
use crate::Report;
use crate::cases::{hash, hash_u32, hash_u64};

fn host(file: &[u8]) -> u32 {
    u32::from(file.first().is_some_and(|first| first >> 4 != 1))
}

fn unpack(file: &[u8], words: &mut [u64]) -> u32 {
    words.fill(file.len() as u64);
    4
}

fn search_file(
    file: &[u8],
    words: &mut [u64],
    records: &mut [u32],
    marks: &mut [u64],
    ellipse: bool,
) -> Report {
    words.fill(7);
    search_words(words, file.len() as u32, 9, records, marks, ellipse)
}

fn search_words(
    words: &[u64],
    width: u32,
    height: u32,
    records: &mut [u32],
    marks: &mut [u64],
    ellipse: bool,
) -> Report {
    records.fill(1 + u32::from(ellipse));
    marks.fill(2);
    Report {
        answer: words.iter().map(|word| word.count_ones()).sum(),
        found: width,
        kept: height,
        marked: words.len() as u32,
    }
}

fn cells_file(file: &[u8], words: &mut [u64], cells: &mut [u32]) -> u32 {
    words.fill(8);
    cells_words(words, file.len() as u32, 9, cells)
}

fn cells_words(words: &[u64], width: u32, height: u32, cells: &mut [u32]) -> u32 {
    cells.fill(width + height);
    words.len() as u32
}

fn program(_: &[u8]) -> Result<Vec<u8>, String> {
    Ok(b"answer 8 found 0 kept 0 marked 242\n".to_vec())
}

const ENTRIES: Entries = Entries {
    host,
    unpack,
    search_file,
    search_words,
    cells_file,
    cells_words,
    program: Some(&program),
};

/// Crop 1 is 33 by 33, all white.
fn stock() -> Stock {
    Stock::parse(&format!("1 10210210{}\n", "0".repeat(330))).unwrap()
}

fn seen(line: &str) -> String {
    let text = written(line, &stock(), &ENTRIES).unwrap();
    let (_, right) = text.trim_end().split_once(ARROW).expect("a right side");
    right.to_string()
}

#[test]
fn what_is_seen() {
    assert_eq!(seen("host file=1"), "answer=0");
    assert_eq!(seen("host file=1 kind=2"), "answer=1");
    let text = "answer=8 lines=1 text=35:fce2eb54cee775e3";
    assert_eq!(seen("program file=1"), text);
    let words = hash_u64(&[169, 169]);
    let unpacked = format!("answer=4 words=2:{words:016x}");
    assert_eq!(seen("unpack file=1 unpack=2"), unpacked);
    let (marks, records) = (hash_u64(&[2]), hash_u32(&[1, 1]));
    let buffers = format!("marks=1:{marks:016x} records=2:{records:016x}");
    let words = hash_u64(&[7; 3]);
    assert_eq!(
        seen("search file=1 unpack=3 marks=1 records=2"),
        format!("answer=9 found=169 kept=9 marked=3 words=3:{words:016x} {buffers}")
    );
    assert_eq!(
        seen("search words=1 size=40x41 cut=34 flip=2111 marks=1 records=2"),
        format!("answer=1 found=40 kept=41 marked=34 {buffers}")
    );
    let (words, cells) = (hash_u64(&[8]), hash_u32(&[178, 178]));
    assert_eq!(
        seen("cells file=1 unpack=1 cells=2"),
        format!("answer=1 words=1:{words:016x} cells=2:{cells:016x}")
    );
    let cells = hash_u32(&[66]);
    assert_eq!(
        seen("cells words=1 cells=1"),
        format!("answer=33 cells=1:{cells:016x}")
    );
}

#[test]
fn the_option_is_handed_over() {
    for (option, word) in [("", 1), (" ellipse=0", 1), (" ellipse=1", 2)] {
        let records = format!("records=1:{:016x}", hash_u32(&[word]));
        for image in ["file=1 unpack=1", "words=1"] {
            let line = format!("search {image} marks=1 records=1{option}");
            assert!(seen(&line).ends_with(&records), "{line}");
        }
    }
}

#[test]
fn bytes_are_a5_before() {
    fn nothing(_: &[u8], _: &mut [u64], _: &mut [u32], _: &mut [u64], _: bool) -> Report {
        Report::default()
    }
    let entries = Entries {
        search_file: nothing,
        ..ENTRIES
    };
    let line = "search file=1 unpack=1 marks=33 records=39";
    let text = written(line, &stock(), &entries).unwrap();
    let eight = hash([0xa5; 8]);
    assert!(text.contains(&format!("words=1:{eight:016x}")), "{text}");
    let rest = "marks=33:b6468da3c918958d records=39:785f99f430c7e849\n";
    assert!(text.ends_with(rest), "{text}");
}

#[test]
fn lines_are_counted() {
    let cases = "# a comment\nhost file=1 => answer=0\n| a table\nhost file=1 => answer=3\n\
                 fill words=1 length=33\nsearch words=1 marks=1 records=2 counts=right => answer=6\n\
                 host file=1\n";
    let mut differences = String::new();
    let verdict = compared(cases, &stock(), &ENTRIES, |line, seen| {
        differences += &format!("{line}: {seen}\n");
    });
    let verdict = verdict.unwrap().to_string();
    assert_eq!(verdict, "1 passed, 2 failed, 2 skipped");
    let expected = "host file=1 => answer=3: answer=0\nhost file=1: answer=0\n";
    assert_eq!(differences, expected);
}

#[test]
fn a_missing_program_is_skipped() {
    let entries = Entries {
        program: None,
        ..ENTRIES
    };
    let verdict = compared("program file=1 => answer=0", &stock(), &entries, |_, _| ());
    assert_eq!(verdict.unwrap().skipped, 1);
}

#[test]
fn writing_keeps_the_left_sides() {
    let cases =
        "# a comment\nhost kind=1 file=1 => answer=3\nhost file=1\ntake lanes=x => taken=1\n";
    let problem = written(cases, &stock(), &ENTRIES).unwrap_err();
    assert_eq!(problem.to_string(), "line 4: lanes: no lane");
    let cases = "# a comment\nhost kind=1 file=1 => answer=3\nhost file=1\nfill words=1 length=3 => answer=6\n";
    let expected = "# a comment\nhost kind=1 file=1 => answer=0\nhost file=1 => answer=0\nfill words=1 length=3 => answer=6\n";
    assert_eq!(written(cases, &stock(), &ENTRIES).unwrap(), expected);
}

#[test]
fn problems_have_their_line() {
    for line in [
        "host file=2",
        "",
        "search words=1 flip=2112 marks=1 records=2",
        "host file=1 => number=1",
        "cells words=1 cells=3 => answer",
    ] {
        let cases = format!("# a comment\n{line}\n");
        let problem = compared(&cases, &stock(), &ENTRIES, |_, _| ()).unwrap_err();
        assert_eq!(problem.number, 2, "{line}");
    }
}
