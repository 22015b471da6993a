//! `bullseye pbm`: a crop as a portable bitmap.
use super::Command;
use crate::{
    arguments, files,
    image::Image,
    output::{Problem, deliver, of_file},
};
use std::ffi::OsString;

pub const COMMAND: Command = Command {
    name: "pbm",
    what: "a crop as a portable bitmap",
    help: "\
Usage: bullseye pbm CROP [--plain] [-o FILE]

Writes a crop as a portable bitmap, which picture viewers and the netpbm tools read: P4, or P1 with --plain.

CROP is a crop file; - is standard input.
--plain  writes P1: a digit for each pixel, 1 black, in lines of at most 70
-o FILE  writes there instead of to standard output

Exit status: 0 written; 1 the crop is refused, or a file cannot be read or written; 2 bad usage.

Example: bullseye pbm examples/parcel.crop -o parcel.pbm
",
    run,
};

/// Netpbm's longest line of a plain picture.
const LINE: u32 = 70;

fn run(args: &[OsString]) -> Result<bool, Problem> {
    let (path, options) = arguments::one(args, &["-o", "--plain"])?;
    let file = files::read_one(&path)?;
    let image = Image::of_file(&file).map_err(|reason| Problem::Failed(of_file(&path, &reason)))?;
    let picture = match options.plain {
        true => plain(&image),
        false => raw(&image),
    };
    deliver(&picture, options.output.as_deref())?;
    Ok(true)
}

/// P4 has the rows of a crop file.
fn raw(image: &Image) -> Vec<u8> {
    let mut picture = format!("P4\n{} {}\n", image.width, image.height).into_bytes();
    picture.extend(image.rows());
    picture
}

/// P1, each row from a line's start.
fn plain(image: &Image) -> Vec<u8> {
    let mut picture = format!("P1\n{} {}\n", image.width, image.height).into_bytes();
    for y in 0..image.height {
        for x in 0..image.width {
            picture.push(if image.is_black(x, y) { b'1' } else { b'0' });
            if x % LINE == LINE - 1 && x + 1 < image.width {
                picture.push(b'\n');
            }
        }
        picture.push(b'\n');
    }
    picture
}
