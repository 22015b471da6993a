//! The crops that cases name: a text with `ID HEX` on each line.

use std::collections::BTreeMap;

use super::Problem;
use crate::{HEADER_BYTES, image_words, unpack};

/// Crop files by their names.
#[derive(Clone, Debug, Default, PartialEq, Eq)]
pub struct Stock(BTreeMap<String, Vec<u8>>);

impl Stock {
    /// The crops of a text. A name without digits after it is a file without bytes.
    pub fn parse(text: &str) -> Result<Stock, Problem> {
        let mut stock = BTreeMap::new();
        for (line, number) in text.lines().zip(1..) {
            let problem = |message: String| Problem { number, message };
            let (id, digits) = line.split_once(' ').unwrap_or((line, ""));
            if id.is_empty() {
                return Err(problem("no name of a crop".to_string()));
            }
            let file = bytes(digits).ok_or_else(|| problem(format!("crop {id}: no hex")))?;
            if stock.insert(id.to_string(), file).is_some() {
                return Err(problem(format!("crop {id} is there twice")));
            }
        }
        Ok(Stock(stock))
    }

    /// The line of a crop.
    pub fn line(id: &str, file: &[u8]) -> String {
        let digits: String = file.iter().map(|byte| format!("{byte:02x}")).collect();
        format!("{id} {digits}\n")
    }

    pub fn file(&self, id: &str) -> Result<&[u8], String> {
        let file = self.0.get(id);
        file.map(Vec::as_slice)
            .ok_or_else(|| format!("no crop {id}"))
    }

    /// Words, width and height of a crop, whatever its kind; rows that are not there are white.
    pub fn image(&self, id: &str) -> Result<(Vec<u64>, u32, u32), String> {
        let mut file = self.file(id)?.to_vec();
        let Some(header) = file.first_chunk_mut::<HEADER_BYTES>() else {
            return Err(format!("crop {id} has no header, so no words"));
        };
        header[0] = header[0] & 0xf | 1 << 4;
        header[3] &= 0xf0;
        let bits = u32::from_be_bytes(*header);
        let (width, height) = (bits >> 16 & 0xfff, bits >> 4 & 0xfff);
        file.resize(HEADER_BYTES + crate::row_bytes(width) * height as usize, 0);
        let mut words = vec![0; image_words(width, height)];
        if !words.is_empty() {
            unpack(&file, &mut words);
        }
        Ok((words, width, height))
    }
}

/// The bytes of hexadecimal digits.
fn bytes(digits: &str) -> Option<Vec<u8>> {
    let digits = digits.as_bytes();
    let value = |digit: u8| (digit as char).to_digit(16);
    let (pairs, rest) = digits.as_chunks::<2>();
    let byte = |pair: &[u8; 2]| Some((value(pair[0])? << 4 | value(pair[1])?) as u8);
    rest.is_empty().then(|| pairs.iter().map(byte).collect())?
}

#[cfg(test)]
mod tests {
    use super::*;
    use crate::pack;

    #[test]
    fn crops_are_read_back() {
        let words: Vec<u64> = (0..33).map(|row| row * row).collect();
        let file = pack(&words, 33, 33);
        let mut live = file.clone();
        live[0] ^= 3 << 4;
        let text = Stock::line("a", &file) + &Stock::line("b", &live) + "c\nd \n";
        let stock = Stock::parse(&text).unwrap();
        assert_eq!(stock.file("a").unwrap(), file);
        assert_eq!(stock.file("c").unwrap(), []);
        for id in ["a", "b"] {
            assert_eq!(stock.image(id).unwrap(), (words.clone(), 33, 33));
        }
        assert_eq!(stock.file("e"), Err("no crop e".to_string()));
        assert!(stock.image("d").is_err());
    }

    #[test]
    fn bad_crops_are_named_with_their_line() {
        for (text, number) in [("1 1", 1), ("1 00\n2 0g", 2), ("1 00\n1 00", 2), ("\n", 1)] {
            assert_eq!(Stock::parse(text).unwrap_err().number, number, "{text}");
        }
    }
}
