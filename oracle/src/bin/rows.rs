//! Holds the readings of the row search against each other on generated rows: the source's own, the second reading by scan, and the
//! second reading by runs. Without the source's text the two second readings.
//!
//! usage: rows [--seed S] [--count N]

use oracle::generate::{RowCoverage, row_search};
use oracle::rows::{READINGS, compared};

fn main() {
    let [seed, count] = oracle::options::numbers(["--seed", "--count"]);
    run(seed.unwrap_or(1), count.unwrap_or(100_000));
}

/// The row of each seed; the first difference ends the run.
fn run(seed: u64, count: u64) {
    if !cfg!(source) {
        println!("the source's text is not here: the two second readings are compared");
    }
    let mut coverage = RowCoverage::default();
    for at in seed..seed + count {
        let search = row_search(at);
        if let Err(difference) = compared(&search) {
            eprintln!("seed {at}: {difference}");
            std::process::exit(1);
        }
        coverage.add(&search);
    }
    let last = seed + count - 1;
    println!("seeds {seed} to {last}: no difference");
    println!("{} readings\n{}", READINGS.len(), coverage.table());
    for row in coverage.missing() {
        println!("not hit: {row}");
    }
}
