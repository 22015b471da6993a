//! Tables in plain text.

/// Columns for a label, and the least for a cell.
const LABEL: usize = 44;
const LEAST: usize = 7;

/// A label and its cells.
pub type Row = (String, Vec<String>);

pub fn row<T: ToString>(label: impl ToString, cells: impl IntoIterator<Item = T>) -> Row {
    let cells = cells.into_iter().map(|cell| cell.to_string()).collect();
    (label.to_string(), cells)
}

/// The title and the columns' names, then the rows; each cell ends under its column's name.
pub fn table(title: &str, columns: &[&str], rows: &[Row]) -> String {
    let mut text = format!("{title:<LABEL$}");
    for column in columns {
        text += &format!("  {column:>LEAST$}");
    }
    for (label, cells) in rows {
        let label = format!("  {label}");
        text += &format!("\n{label:<LABEL$}");
        for (cell, column) in cells.iter().zip(columns) {
            let width = column.len().max(LEAST);
            text += &format!("  {cell:>width$}");
        }
    }
    text + "\n"
}
