//! The stored vectors, replayed on both readings.

use oracle::generate::Coverage;
use oracle::second;
use oracle::vectors::{self, SearchFile, Vector};

fn stored() -> Vec<Vector> {
    let path = concat!(env!("CARGO_MANIFEST_DIR"), "/../crates/replay/stdin");
    vectors::read(&std::fs::read(path).expect("the stored vectors"))
}

fn replay(search: SearchFile) {
    for vector in stored() {
        vector.replay(search).unwrap();
    }
}

#[test]
fn second_reading() {
    replay(second::search_file);
}

#[cfg(source)]
#[test]
fn source() {
    replay(oracle::harness::search_file);
}

#[test]
fn every_row_is_hit() {
    let mut coverage = Coverage::default();
    for v in stored() {
        coverage.add(v.report.answer, v.report.found, v.report.kept, &v.records);
        for widths in v.ellipse_widths() {
            coverage.add_verdict(&widths);
        }
    }
    assert!(stored().len() >= 400);
    assert!(coverage.missing().is_empty(), "{:?}", coverage.missing());
}

#[test]
fn pack_is_read_back() {
    let all = stored();
    assert_eq!(vectors::read(&vectors::write(&all)), all);
}
