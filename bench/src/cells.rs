//! The table of cells.

use crops::CELL_ROWS;
use oracle::generate::Crop;
use oracle::harness;

use crate::sets::Set;
use crate::source::{Logged, Plain, Source, prepared};
use crate::table;

const HEADER: &str = "\
| Crops | Size | Answers | Product, µs | Logged Rust, µs | Ratio | Rust without log, µs | Ratio |
|---|---|---|---|---|---|---|---|";

/// The answer, and the cells, which were not clear.
fn left(read: impl FnOnce(&mut [u32]) -> u32) -> (u32, [u32; CELL_ROWS]) {
    let mut cells = [!0; CELL_ROWS];
    (read(&mut cells), cells)
}

/// The same by the function of the source that is timed, its cells put into words.
fn timed<S: Source>(crop: &Crop) -> (u32, [u32; CELL_ROWS]) {
    let image = S::new(crop);
    let given = left(|cells| image.cells(cells));
    assert_eq!(image.read_bits(), given.0 == 0);
    given
}

/// Stops unless all have the same cells of a crop. Gives their answer.
fn agreed(crop: &Crop) -> u32 {
    let Crop { width, height, .. } = *crop;
    let ours = left(|cells| bullseye::cells_words(&crop.words, width, height, cells));
    let judge = left(|cells| harness::cells_words(&crop.words, width, height, cells));
    assert_eq!(
        [ours; 3],
        [judge, timed::<Logged>(crop), timed::<Plain>(crop)]
    );
    ours.0
}

/// The cells of all crops by the product.
fn ours(crops: &[Crop]) -> impl FnMut() {
    let mut cells = [0; CELL_ROWS];
    move || {
        for crop in crops {
            bullseye::cells_words(&crop.words, crop.width, crop.height, &mut cells);
        }
    }
}

/// The same by the source, as its bit matrix.
fn theirs<S: Source>(crops: &[Crop]) -> impl FnMut() {
    let images: Vec<S> = prepared(crops);
    move || {
        for image in &images {
            image.read_bits();
        }
    }
}

/// One line of the table.
fn line(set: &Set) -> String {
    let crops = &set.crops;
    let answers: Vec<_> = crops.iter().map(agreed).collect();
    let columns = table::columns(
        crops.len(),
        [
            &mut ours(crops),
            &mut theirs::<Logged>(crops),
            &mut theirs::<Plain>(crops),
        ],
    );
    let (name, size, answers) = (set.name, set.size(), table::answers(&answers));
    format!("| {name} | {size} | {answers} | {columns} |")
}

pub fn print(sets: &[Set]) {
    table::print(HEADER, sets, line);
}
