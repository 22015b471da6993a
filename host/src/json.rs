//! JSON lines: an object for each line of a table.
use crate::table::{COLUMNS, Cell, ELLIPSE};

/// A line as an object with the columns' names.
pub fn line(row: &[Cell]) -> Vec<u8> {
    let members: Vec<String> = (COLUMNS.iter().chain([&ELLIPSE]).zip(row))
        .map(|(column, cell)| format!("\"{column}\":{}", value(cell)))
        .collect();
    format!("{{{}}}\n", members.join(",")).into_bytes()
}

fn value(cell: &Cell) -> String {
    match cell {
        Cell::Empty => "null".into(),
        // A float that is no number, or infinite, has no JSON number.
        Cell::Number(number) if number.ends_with(|last: char| !last.is_ascii_digit()) => {
            format!("\"{number}\"")
        }
        Cell::Number(number) => number.clone(),
        Cell::Text(text) => quoted(text),
    }
}

/// A string; a byte B that is no part of UTF-8 text is written \udcB, in hex, as Python's surrogateescape has it.
fn quoted(text: &[u8]) -> String {
    let mut json = String::from("\"");
    for chunk in text.utf8_chunks() {
        for character in chunk.valid().chars() {
            match character {
                '"' => json += "\\\"",
                '\\' => json += "\\\\",
                '\u{0}'..='\u{1f}' | '\u{7f}' => {
                    json += &format!("\\u{:04x}", u32::from(character))
                }
                _ => json.push(character),
            }
        }
        for byte in chunk.invalid() {
            json += &format!("\\udc{byte:02x}");
        }
    }
    json + "\""
}

#[cfg(test)]
mod tests {
    use super::*;

    #[test]
    fn strings() {
        let text = b"a\"b\\c\n\xff\xc3\xa9";
        assert_eq!(quoted(text), "\"a\\\"b\\\\c\\u000a\\udcff\u{e9}\"");
    }

    #[test]
    fn numbers() {
        let number = |text: &str| value(&Cell::Number(text.into()));
        assert_eq!(["12", "0.5", "-3"].map(number), ["12", "0.5", "-3"]);
        assert_eq!(["NaN", "inf"].map(number), ["\"NaN\"", "\"inf\""]);
    }
}
