//! A certificate as text: a blanked crop, its run, and the theorems that make the run the deleted crop's too; or a redacted crop and
//! its run. Lines that begin with # are for the reader; all others are data.
mod kind;

pub use kind::Kind;

use crate::{
    image::Image,
    kept::{self, Kept, MARGIN},
    redacting::black_pixels,
    run::Run,
};
use crops::{FIELDS, Field, HEADER_BYTES, RECORD_WORDS, RECORDS, Report, Unit};

/// The first line: what the file is, and the number of its format.
const TITLE: &str = "bullseye certificate ";
const FORMAT: &str = "1";

/// The program with its version.
pub const PRODUCT: &str = concat!("bullseye ", env!("CARGO_PKG_VERSION"));

/// The line of a certificate whose searches had the ellipse check; others do not have it.
const ELLIPSE: &str = "ellipse check: on";

/// What precedes the rows of the kept pixels.
const KEPT: &str = "kept pixels, in the same way, 1 is kept:";
const END: &str = "end";

/// Longer than any certificate: two crops of 64,004 bytes and 16,000 record words.
pub const LONGEST: usize = 4 << 20;

/// What a certificate is made of, besides what a search of its crop gives.
pub struct Certificate {
    /// The program that wrote it.
    pub product: String,
    /// The file that the crop came from.
    pub name: String,
    pub kind: Kind,
    /// Whether its searches had the ellipse check.
    pub ellipse: bool,
    /// The blanked or redacted crop.
    pub file: Vec<u8>,
}

/// The text of a crop of this kind and its run. What was read is no part of a redaction.
pub fn text(kind: Kind, (product, name): (&str, &str), image: &Image, run: &Run) -> String {
    let Report {
        answer,
        found,
        kept,
        marked,
    } = run.seen.report;
    let meaning = run.seen.answer.meaning;
    let option = match run.ellipse {
        true => format!("{ELLIPSE}\n"),
        false => String::new(),
    };
    let (about, marked, map) = match kind {
        Kind::Blanked => (
            sizes(image, run),
            format!("marked: {marked}\n"),
            format!("{KEPT}\n{}", rows(&kept::map(image, run))),
        ),
        Kind::Redacted => (
            format!("{}black pixels: {}\n", size(image), black_pixels(image)),
            String::new(),
            String::new(),
        ),
    };
    format!(
        "{TITLE}{FORMAT}\nproduct: {product}\nname: {name}\nkind: {}\n{option}{}{about}\
answer: {answer} {meaning}\nfound: {found}\nkept: {kept}\n{marked}{}{}\n{}{map}{END}\n",
        kind.word(),
        kind.worth(),
        records(run),
        kind.crop(),
        rows(image),
    )
}

fn size(image: &Image) -> String {
    format!("size: {} by {} pixels\n", image.width, image.height)
}

/// The size of the crop, and how much of it is kept.
fn sizes(image: &Image, run: &Run) -> String {
    let kept = Kept::of(image, run);
    format!(
        "{}kept pixels: {} of {}\nrows kept from side to side, but for {MARGIN} pixels at each: {} of {}\n\
marked bits that fill up rows: {}\n",
        size(image),
        kept.pixels,
        kept.of_pixels,
        kept.rows,
        kept.of_rows,
        run.seen.report.marked as usize - kept.pixels
    )
}

/// The kept records, each word by its field's name, and what the others hold.
fn records(run: &Run) -> String {
    let (whole, _) = run.buffer.as_chunks::<RECORD_WORDS>();
    let (kept, others) = whole.split_at(run.seen.records.len());
    let mut text = format!(
        "records lent: {RECORDS} of {RECORD_WORDS} words, all of them 0 before the search\n"
    );
    for (rank, record) in (1..).zip(kept) {
        text += &format!("record: {rank}\n");
        for field in FIELDS {
            let words = &record[field.place..][..field.words];
            text += &format!("  {}: {}\n", field.name, values(field, words));
        }
    }
    let set = others.as_flattened().iter().filter(|&&word| word != 0);
    text + &format!("words of other records that are not 0: {}\n", set.count())
}

/// A field's words: whole numbers, or the bits of floats with what they are.
fn values(field: &Field, words: &[u32]) -> String {
    let value = |word: &u32| match field.unit {
        Unit::Pixels | Unit::Code => word.to_string(),
        Unit::PixelBits | Unit::DegreeBits | Unit::Bits => {
            format!("{word:08x} ({})", f32::from_bits(*word))
        }
    };
    words.iter().map(value).collect::<Vec<_>>().join(" ")
}

/// A crop file in hexadecimal, its header and each row on a line.
fn rows(image: &Image) -> String {
    let file = image.file();
    let (header, rows) = file.split_at(HEADER_BYTES);
    let lines = [header]
        .into_iter()
        .chain(rows.chunks(crops::row_bytes(image.width)));
    let mut text = String::new();
    for line in lines {
        text.extend(line.iter().map(|byte| format!("{byte:02x}")));
        text.push('\n');
    }
    text
}

/// The parts of a certificate, or why the bytes are none.
pub fn parse(bytes: &[u8]) -> Result<Certificate, String> {
    let text = std::str::from_utf8(bytes).map_err(|_| "it is no text")?;
    let mut lines = text.lines();
    match lines.next().and_then(|line| line.strip_prefix(TITLE)) {
        Some(FORMAT) => (),
        Some(other) => {
            return Err(format!(
                "its format is {other}, and this program reads {FORMAT}"
            ));
        }
        None => return Err(format!("its first line is not `{TITLE}{FORMAT}`")),
    }
    let product = value(lines.next(), "product")?;
    let name = value(lines.next(), "name")?;
    let kind = value(lines.next(), "kind")?;
    let kind = Kind::of_word(&kind).ok_or(format!("its kind is {kind}, which is not known"))?;
    let ellipse = lines.clone().next() == Some(ELLIPSE);
    if text.lines().last() != Some(END) {
        return Err(format!("it does not end with the line `{END}`"));
    }
    let rows = lines.skip_while(|&line| line != kind.crop()).skip(1);
    let file = rows
        .take_while(|&line| line != KEPT && line != END)
        .map(bytes_of)
        .collect::<Option<Vec<_>>>()
        .ok_or("a row of its crop is not in hexadecimal")?
        .concat();
    match file.is_empty() {
        true => Err("it has no crop".into()),
        false => Ok(Certificate {
            product,
            name,
            kind,
            ellipse,
            file,
        }),
    }
}

/// What stands after a key.
fn value(line: Option<&str>, key: &str) -> Result<String, String> {
    line.and_then(|line| line.strip_prefix(key)?.strip_prefix(": "))
        .map(String::from)
        .ok_or(format!("its line `{key}: ..` is missing"))
}

/// The bytes of a line in hexadecimal.
fn bytes_of(line: &str) -> Option<Vec<u8>> {
    let (pairs, []) = line.as_bytes().as_chunks::<2>() else {
        return None;
    };
    let digit = |byte: u8| char::from(byte).to_digit(16);
    pairs
        .iter()
        .map(|&[high, low]| Some((digit(high)? << 4 | digit(low)?) as u8))
        .collect()
}

/// How two certificates differ: the first line of each that does, with its number, and how many do.
#[derive(Debug, PartialEq, Eq)]
pub struct Difference {
    pub line: usize,
    pub says: Option<String>,
    pub gives: Option<String>,
    pub lines: usize,
}

/// The data in a line: of an answer the number, since another version may say it in other words; nothing of a line for the reader.
fn data(line: &str) -> Option<String> {
    match line.strip_prefix("answer: ") {
        _ if line.starts_with('#') => None,
        Some(answer) => answer.split(' ').next().map(|n| format!("answer: {n}")),
        None => Some(line.to_owned()),
    }
}

/// Holds a certificate against what the run gives, line by line; without `all` only the data.
pub fn difference(said: &str, given: &str, all: bool) -> Option<Difference> {
    let compared = |text: &str| -> Vec<(usize, String)> {
        let line = |line: &str| {
            if all {
                Some(line.to_owned())
            } else {
                data(line)
            }
        };
        let lines = (1..).zip(text.lines().map(line));
        (lines.filter_map(|(number, line)| Some((number, line?)))).collect()
    };
    let (said, given) = (compared(said), compared(given));
    let differs = |&place: &usize| {
        said.get(place).map(|(_, line)| line) != given.get(place).map(|(_, line)| line)
    };
    let mut places = (0..said.len().max(given.len())).filter(differs);
    let first = places.next()?;
    let last = said.last().map_or(0, |(number, _)| *number);
    Some(Difference {
        line: said.get(first).map_or(last + 1, |(number, _)| *number),
        says: said.get(first).map(|(_, line)| line.clone()),
        gives: given.get(first).map(|(_, line)| line.clone()),
        lines: 1 + places.count(),
    })
}

#[cfg(test)]
mod tests {
    use super::*;

    /// The first line that differs, what stands there on both sides, and how many differ.
    fn differs(said: &str, given: &str, all: bool) -> Option<(usize, String, String, usize)> {
        let found = difference(said, given, all)?;
        let words = |line: Option<String>| line.unwrap_or("nothing".into());
        Some((
            found.line,
            words(found.says),
            words(found.gives),
            found.lines,
        ))
    }

    #[test]
    fn lines_that_differ_are_counted_and_the_first_is_named() {
        assert_eq!(differs("a\n# b\nc\n", "a\n# b\nc\n", true), None);
        let changed = differs("a\n# x\nd\n", "a\n# b\nc\n", true);
        assert_eq!(changed, Some((2, "# x".into(), "# b".into(), 2)));
        let data = differs("a\n# x\nd\n", "a\n# b\n# b\nc\n", false);
        assert_eq!(data, Some((3, "d".into(), "c".into(), 1)));
        let (kept, found) = ("answer: 8 none is kept\n", "answer: 8 none is found\n");
        assert_eq!(differs(kept, found, false), None);
        assert!(differs(kept, found, true).is_some());
        let other = differs(kept, "answer: 9 none is kept\n", false);
        assert_eq!(other, Some((1, "answer: 8".into(), "answer: 9".into(), 1)));
        let short = differs("a\n", "a\nb\n", true);
        assert_eq!(short, Some((2, "nothing".into(), "b".into(), 1)));
        let long = differs("a\nb\n", "a\n", true);
        assert_eq!(long, Some((2, "b".into(), "nothing".into(), 1)));
    }

    #[test]
    fn only_whole_pairs_of_hexadecimal_digits_are_bytes() {
        assert_eq!(bytes_of("00fF7a"), Some(vec![0, 0xff, 0x7a]));
        assert_eq!(bytes_of(""), Some(vec![]));
        for line in ["0", "0g", "+1", "é", " 00"] {
            assert_eq!(bytes_of(line), None, "{line}");
        }
    }
}
