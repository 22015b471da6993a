//! The proved cells of Zint's upright symbols: the table of oracle/README.md, which the judge's cells have too.

#[test]
fn cells_are_as_documented() {
    oracle::upright::documented(bullseye::cells_words).unwrap();
}
