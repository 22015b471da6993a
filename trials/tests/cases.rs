//! The stored cases of oracle/cases/, whose right sides are the judge's, run through the product.
use std::fs;

use crops::cases::{Entries, Stock, compared};

fn stored(name: &str) -> String {
    let path = format!("{}/../oracle/cases/{name}", env!("CARGO_MANIFEST_DIR"));
    fs::read_to_string(&path).unwrap_or_else(|error| panic!("{path}: {error}"))
}

/// Lines of the program are left out here: `input` runs it.
const PRODUCT: Entries = Entries {
    host: bullseye::check,
    unpack: bullseye::unpack,
    search_file: bullseye::search_file,
    search_words: bullseye::search_words,
    cells_file: bullseye::cells_file,
    cells_words: bullseye::cells_words,
    program: None,
};

#[test]
fn the_product_gives_the_stored_right_sides() {
    let stock = Stock::parse(&stored("crops.txt")).unwrap_or_else(|problem| panic!("{problem}"));
    let verdict = compared(&stored("cases.txt"), &stock, &PRODUCT, |line, seen| {
        println!("{line}\n| seen {seen}");
    });
    let verdict = verdict.unwrap_or_else(|problem| panic!("{problem}"));
    assert_eq!(verdict.failed, 0, "{verdict}");
    assert!(verdict.passed > 2_500, "{verdict}");
}
