//! What the documents say against the Rust side's tables, the examples and the proved code.
use super::{Folder, INDENT, document, repository};
use std::{fs, path::PathBuf};

/// The cells of the rows of the manual's tables.
fn rows() -> Vec<Vec<String>> {
    let text = document("docs/MANUAL.md");
    let rows = text
        .lines()
        .filter_map(|line| line.strip_prefix("| ")?.strip_suffix(" |"));
    rows.map(|row| row.split(" | ").map(String::from).collect())
        .collect()
}

/// That some row begins with these cells.
fn has_row(cells: &[&str]) {
    let found = rows()
        .iter()
        .any(|row| row.iter().zip(cells).filter(|(a, b)| a == b).count() == cells.len());
    assert!(found, "docs/MANUAL.md has no row | {} |", cells.join(" | "));
}

#[test]
fn answers_fields_and_outcomes_are_those_of_the_tables() {
    for answer in crops::ANSWERS {
        let ending = if answer.refused() {
            "refused"
        } else {
            "searched"
        };
        has_row(&[&answer.number.to_string(), answer.meaning, ending]);
    }
    let blank = crops::cells_meaning(crops::BLANK).expect("an answer of cells");
    has_row(&[&crops::BLANK.to_string(), blank, "accepted"]);
    for field in crops::FIELDS {
        let places = match field.words {
            1 => field.place.to_string(),
            words => format!("{} to {}", field.place, field.place + words - 1),
        };
        has_row(&[&places, &format!("`{}`", field.name)]);
    }
    for outcome in crops::Outcome::ALL {
        has_row(&[&outcome.number().to_string(), outcome.words()]);
    }
}

/// A number with its thousands parted by commas.
fn grouped(number: usize) -> String {
    match number {
        0..1000 => number.to_string(),
        _ => format!("{},{:03}", number / 1000, number % 1000),
    }
}

#[test]
fn sizes_are_those_of_the_tables() {
    let text = document("docs/MANUAL.md").replace('\n', " ");
    let number = |number: usize, after: &str| format!("{} {after}", grouped(number));
    let sides = format!(
        "{} to {}",
        crops::LEAST_SIDE,
        grouped(crops::GREATEST_SIDE as usize)
    );
    let sizes = [
        sides,
        number(crops::MOST_WORDS, "words"),
        number(crops::LONGEST, "bytes"),
        number(crops::RECORD_WORDS, "words"),
        number(crops::RECORDS, "records"),
        number(crops::MOST_CANDIDATES, "records"),
        number(crops::CELL_ROWS, "rows"),
        number(crops::CELL_COLUMNS, "cells"),
    ];
    for size in sizes {
        assert!(text.contains(&size), "docs/MANUAL.md does not say '{size}'");
    }
}

#[test]
fn every_command_has_its_section() {
    let overview = Folder::new("help").printed("bullseye --help");
    let (_, list) = overview
        .split_once("Commands:\n")
        .expect("it lists commands");
    let manual = document("docs/MANUAL.md");
    let mut count = 0;
    for line in list.lines().take_while(|line| !line.is_empty()) {
        let name = line
            .split_whitespace()
            .next()
            .expect("a command has a name");
        let heading = format!("\n### bullseye {name}\n");
        assert!(
            manual.contains(&heading),
            "docs/MANUAL.md has no section on {name}"
        );
        count += 1;
    }
    assert!(count > 6, "only {count} commands were found");
}

#[test]
fn examples_stand_in_the_manual() {
    let manual = document("docs/MANUAL.md");
    for name in [
        "examples/c/find.c",
        "examples/c/cells.c",
        "examples/rust/src/main.rs",
        "examples/rust/Cargo.toml",
    ] {
        assert!(
            manual.contains(&document(name)),
            "docs/MANUAL.md has another text than {name}"
        );
    }
}

#[test]
fn the_readme_shows_what_is_printed() {
    let readme = document("README.md");
    for line in Folder::new("readme")
        .printed("bullseye find examples/parcel.crop")
        .lines()
    {
        let shown = readme
            .lines()
            .any(|shown| shown.strip_prefix(INDENT) == Some(line));
        assert!(shown, "README.md does not show: {line}");
    }
}

/// The texts of crates/*/FOLDER/*.
fn texts(folder: &str) -> String {
    let list = |folder: PathBuf| fs::read_dir(folder).into_iter().flatten().flatten();
    let crates = list(repository().join("crates"));
    let files = crates.flat_map(|one| list(one.path().join(folder)));
    files
        .filter_map(|file| fs::read_to_string(file.path()).ok())
        .collect()
}

/// A name in the only backquotes of a cell.
fn named(cell: &str) -> Option<&str> {
    cell.trim().strip_prefix('`')?.strip_suffix('`')
}

/// The functions that docs/ARCHITECTURE.md names in the first column of a table, and the definitions in the third, are there.
#[test]
fn the_architecture_names_what_is_there() {
    let (code, specs) = (texts("src"), texts("specs"));
    let text = document("docs/ARCHITECTURE.md");
    let mut count = 0;
    for row in text.lines().filter(|line| line.starts_with("| `")) {
        let cells: Vec<&str> = row.split('|').collect();
        let function = named(cells[1]).expect("a row begins with one name");
        assert!(
            ["(", "<"]
                .iter()
                .any(|next| code.contains(&format!("fn {function}{next}"))),
            "no function {function}"
        );
        if let Some(definition) = named(cells[3]) {
            let declared = format!(" {definition} : ");
            assert!(specs.contains(&declared), "no definition {definition}");
        }
        count += 1;
    }
    assert!(count > 10, "only {count} functions were found");
}
