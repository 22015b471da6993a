//! Zint's upright symbols: each module is read as Zint means it, and README.md tells how many other cells are not.

use crops::{CELL_COLUMNS, CELL_ROWS};
use oracle::upright::{documented, in_eye, stored};
use oracle::{JUDGE, SECOND};

#[test]
fn second_reading() {
    documented(SECOND.cells_words).unwrap();
}

#[cfg(source)]
#[test]
fn source() {
    let judge = JUDGE.expect("the source is here");
    documented(judge.cells_words).unwrap();
}

/// The row that is read is capped by the rectangle's height alone, so below white rows a symbol's last rows are read too high up.
#[test]
fn white_rows_above_cost_the_last_rows() {
    let first = &stored()[0];
    for entries in [Some(SECOND), JUDGE].into_iter().flatten() {
        let same = |rows| first.lowered(rows).agreement(entries.cells_words).same;
        assert_eq!([0, 4, 8, 16, 40].map(same), [939, 939, 924, 901, 810]);
    }
}

/// Whether a cell is a module: 33 rows of 30 and 29 in turn, without the bull's-eye.
fn is_module(x: u32, y: u32) -> bool {
    x + y % 2 < CELL_COLUMNS as u32 && !in_eye(x, y)
}

/// MaxiCode's 144 codewords of six modules, its 18 modules that tell the turn, and the two that are always black.
#[test]
fn modules_are_as_many_as_a_symbol_has() {
    let cells = (0..CELL_ROWS as u32).flat_map(|y| (0..CELL_COLUMNS as u32).map(move |x| (x, y)));
    let modules = cells.filter(|&(x, y)| is_module(x, y)).count();
    assert_eq!(modules, 144 * 6 + 18 + 2);
}

/// Zint has no black module where there is none.
#[test]
fn other_cells_are_white_in_the_grids() {
    for symbol in stored() {
        for (y, row) in (0..).zip(symbol.modules) {
            let black = (0..u32::BITS).filter(|x| row >> x & 1 != 0);
            let stray: Vec<_> = black.filter(|&x| !is_module(x, y)).collect();
            assert!(stray.is_empty(), "{}, row {y}: {stray:?}", symbol.name);
        }
    }
}
