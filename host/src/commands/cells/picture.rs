//! Cells as a picture: hexagons as they lie in a symbol, with the numbers of rows and columns.
use super::{Cells, is_black};
use crate::svg::{Bounds, FONT, escaped};
use crops::{CELL_COLUMNS, CELL_ROWS};

/// The picture's unit, from one cell of a row to the next, in units of the screen.
const ZOOM: f64 = 24.0;

/// From one row to the next, in that unit: half the square root of 3, as regular hexagons lie.
const ROW: f64 = 0.8660254;

/// A regular hexagon of width 1, clockwise from its upper point, and how far that point is above its middle.
const HEXAGON: &str = "l.5 .2887v.5774l-.5 .2887l-.5 -.2887v-.5774z";
const POINT: f64 = 0.57735;

/// The picture of a crop's cells, with its name and, if there is one, the note on them below.
pub fn of(name: &str, Cells { rows, note }: &Cells) -> String {
    let mut bounds = Bounds {
        left: -1.5,
        top: -1.5,
        right: CELL_COLUMNS as f64,
        bottom: (CELL_ROWS - 1) as f64 * ROW + POINT,
    };
    let black = |column, row: usize| is_black(rows[row], column);
    let cells = hexagons("black", "#000", black)
        + &hexagons("white", "#fff", |column, row| !black(column, row));
    let caption = format!("{name}: {CELL_ROWS} rows of {CELL_COLUMNS} cells");
    let numbering = "columns are numbered above even rows; odd rows lie half a cell to the right";
    let mut legend = vec![("#000", caption), ("#000", numbering.into())];
    legend.extend(note.iter().map(|note| ("#c00", note.clone())));
    let text = bounds.legend(&legend, ZOOM);
    let start = bounds.start(ZOOM, FONT / ZOOM);
    format!(
        "{start}<title>{}</title>\n<g stroke=\"#bbb\" stroke-width=\"0.04\">\n{cells}</g>\n\
<g fill=\"#666\" text-anchor=\"middle\">\n{}</g>\n{text}</svg>\n",
        escaped(name),
        numbers(),
    )
}

/// The middle of a cell.
fn middle(column: usize, row: usize) -> (f64, f64) {
    let shift = (row % 2) as f64 / 2.0;
    (column as f64 + shift, row as f64 * ROW)
}

/// A path of the cells that are chosen.
fn hexagons(class: &str, fill: &str, chosen: impl Fn(usize, usize) -> bool) -> String {
    let mut path = String::new();
    for row in 0..CELL_ROWS {
        for column in (0..CELL_COLUMNS).filter(|&column| chosen(column, row)) {
            let (x, y) = middle(column, row);
            path += &format!("M{x} {:.3}{HEXAGON}", y - POINT);
        }
    }
    format!("<path class=\"{class}\" fill=\"{fill}\" d=\"{path}\"/>\n")
}

/// The columns' numbers above the first row, and the rows' left of the first column.
fn numbers() -> String {
    let number = |x: f64, y: f64, number: usize| {
        format!("<text x=\"{x:.2}\" y=\"{y:.3}\">{number}</text>\n")
    };
    // A digit is about 0.7 of its font's size high.
    let drop = 0.35 * FONT / ZOOM;
    let columns = (0..CELL_COLUMNS).map(|column| number(column as f64, drop - 1.0, column));
    let rows = (0..CELL_ROWS).map(|row| number(-1.0, middle(0, row).1 + drop, row));
    columns.chain(rows).collect()
}
