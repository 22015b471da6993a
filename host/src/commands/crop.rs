//! `bullseye crop`: a portable bitmap as a crop.
use super::Command;
use crate::{
    arguments,
    files::read_some,
    image::Image,
    output::{Problem, complain, deliver, of_file, reason},
};
use std::ffi::OsString;

pub const COMMAND: Command = Command {
    name: "crop",
    what: "a portable bitmap as a crop",
    help: "\
Usage: bullseye crop PICTURE [-o FILE]

Writes a portable bitmap (P1 or P4) as a crop file. Both sides must be of 33 to 2,048 pixels, and the rows, each of whole words
of 64 pixels, of 8,000 words at most. Only the first picture of a P4 file is taken; a complaint tells of more.

PICTURE is a portable bitmap; - is standard input. The netpbm tools make one of other pictures.
-o FILE  writes there instead of to standard output

Exit status: 0 written; 1 no bitmap, or none that a crop can hold, or a file cannot be read or written; 2 bad usage.

Example: bullseye crop parcel.pbm -o parcel.crop
",
    run,
};

/// Bytes that a picture may have: a plain one of 512,000 pixels has 16 for each.
const LONGEST: usize = 8 << 20;

fn run(args: &[OsString]) -> Result<bool, Problem> {
    let (path, options) = arguments::one(args, &["-o"])?;
    let failed = |reason: &str| Problem::Failed(of_file(&path, reason));
    let picture = read_some(&path, LONGEST).map_err(|error| failed(&reason(&error)))?;
    let mut reader = Reader::of(&picture);
    let image = reader.image().map_err(|reason| failed(&reason))?;
    if let Some(more) = reader.left_out() {
        complain(&of_file(&path, &more));
    }
    deliver(&image.file(), options.output.as_deref())?;
    Ok(true)
}

/// White space by netpbm's rules.
fn is_blank(byte: u8) -> bool {
    matches!(byte, b' ' | b'\t' | b'\n' | b'\r')
}

/// Takes a picture apart by netpbm's rules.
struct Reader<'a> {
    bytes: &'a [u8],
    at: usize,
    raw: bool,
}

impl<'a> Reader<'a> {
    fn of(bytes: &'a [u8]) -> Self {
        Reader {
            bytes,
            at: 0,
            raw: false,
        }
    }

    fn image(&mut self) -> Result<Image, String> {
        self.raw = match self.bytes.get(..2) {
            Some(b"P1") => false,
            Some(b"P4") => true,
            Some([b'P', b'2' | b'3' | b'5'..=b'7']) => {
                return Err("a grey or colour picture; only P1 and P4 have one bit a pixel".into());
            }
            _ => return Err("no portable bitmap: it begins with neither P1 nor P4".into()),
        };
        self.at = 2;
        let width = self.number("width")?;
        let height = self.number("height")?;
        let image = Image::white(width, height)?;
        match self.raw {
            true => self.raw_rows(image),
            false => self.plain_rows(image),
        }
    }

    /// The next character of the text; a comment counts as the end of its line.
    fn character(&mut self) -> Option<u8> {
        let rest = self.bytes.get(self.at..)?;
        let ends = |byte: &u8| matches!(byte, b'\n' | b'\r');
        let length = match rest.first()? {
            b'#' => rest.iter().position(ends)? + 1,
            _ => 1,
        };
        self.at += length;
        Some(rest[length - 1])
    }

    /// The next character that is not blank.
    fn visible(&mut self) -> Option<u8> {
        loop {
            let byte = self.character()?;
            if !is_blank(byte) {
                return Some(byte);
            }
        }
    }

    /// A decimal number and the blank after it. Digits beyond what a side can have only make it larger.
    fn number(&mut self, name: &str) -> Result<usize, String> {
        let mut byte = self.visible();
        let mut value: Option<usize> = None;
        while let Some(digit @ b'0'..=b'9') = byte {
            let digit = usize::from(digit - b'0');
            value = Some(value.unwrap_or(0).saturating_mul(10).saturating_add(digit));
            byte = self.character();
        }
        match (value, byte) {
            (Some(value), Some(byte)) if is_blank(byte) => Ok(value),
            (_, None) => Err(self.short(name)),
            _ => Err(format!("its {name} is no decimal number")),
        }
    }

    /// Why there is no more.
    fn short(&self, place: &str) -> String {
        match self.bytes.len() {
            LONGEST => format!("its {place} is not within the first {LONGEST} bytes"),
            _ => format!("it ends before its {place} does"),
        }
    }

    /// Rows of bits as in a crop; the bits that fill up a row may be any.
    fn raw_rows(&mut self, mut image: Image) -> Result<Image, String> {
        let row = crops::row_bytes(image.width);
        let rows = self
            .bytes
            .get(self.at..self.at + row * image.height as usize);
        let rows = rows.ok_or_else(|| self.short("last row"))?;
        self.at += rows.len();
        for (y, row) in (0..).zip(rows.chunks_exact(row)) {
            for x in 0..image.width {
                image.set(x, y, row[x as usize / 8] & 0x80 >> (x % 8) != 0);
            }
        }
        Ok(image)
    }

    /// Digits, blanks between them or none.
    fn plain_rows(&mut self, mut image: Image) -> Result<Image, String> {
        for y in 0..image.height {
            for x in 0..image.width {
                match self.visible() {
                    Some(digit @ (b'0' | b'1')) => image.set(x, y, digit == b'1'),
                    Some(_) => {
                        return Err(format!("the pixel in column {x} of row {y} is not 0 or 1"));
                    }
                    None => return Err(self.short("last row")),
                }
            }
        }
        Ok(image)
    }

    /// A complaint about what follows a P4 picture.
    fn left_out(&self) -> Option<String> {
        let more = self.raw && self.at < self.bytes.len();
        more.then(|| "only its first picture is taken; there is more in the file".into())
    }
}
