//! `bullseye cells`: the cells of lone symbols.
use super::{Command, files_help};
use crate::{
    arguments::{Arguments, MANY},
    files::{self, Said},
    inputs::Inputs,
    output::{Problem, complain, deliver, of_file},
};
use crops::{BLANK, CELL_COLUMNS, CELL_ROWS, Unknown};
use std::{ffi::OsString, path::Path};

mod picture;

pub const COMMAND: Command = Command {
    name: "cells",
    what: "the 33 rows of 30 cells of a lone symbol in each crop file",
    help: concat!(
        "\
Usage: bullseye cells [--hex] [--list | -0] FILE..
       bullseye cells --svg CROP [-o FILE]

Reads the cells of an upright symbol that fills its crop: 33 rows of 30 cells, spread over the enclosing rectangle of the black
pixels. Prints a line for each row, the first row first: # for a black cell, . for a white one, with a blank between neighbours. Odd
rows begin with a blank, since they lie half a cell further to the right. Counted from 0, column C is character 2 C in even rows,
2 C + 1 in odd ones.
Cut off white rows above the symbol: with too many of them rows of cells are read too high up, which standard error and a picture tell.
With more than one file, or a folder or a list, a line `FILE:` comes before the rows of each.

--hex    prints each row as a word of 8 hexadecimal digits: column C is bit C, from the least significant on
--svg    writes a picture of one crop instead, which any browser shows: its cells as hexagons, with the numbers of rows and columns
-o FILE  writes the picture there instead of to standard output

",
        files_help!(),
        "\
A file that is refused, has no black pixel or cannot be read is named on standard error, with the reason, and does not end the run.

Exit status: 0 the cells of all files were read; 1 a file is refused, has no black pixel, or cannot be read or written; 2 bad usage.

Example: bullseye cells examples/lone.crop
"
    ),
    run,
};

fn run(args: &[OsString]) -> Result<bool, Problem> {
    let arguments = Arguments::of(args, &[&MANY[..], &["--hex", "--svg", "-o"]].concat())?;
    let wrong = |words: &str| Err(Problem::Usage(words.into()));
    match (arguments.hex, arguments.svg) {
        (true, true) => wrong("--hex and --svg cannot stand together"),
        (_, true) if arguments.list => wrong("--svg takes one crop and no list"),
        (_, true) => draw(arguments),
        _ if arguments.output.is_some() => wrong("-o goes with --svg"),
        (hex, _) => say(&arguments, if hex { hex_line } else { line }),
    }
}

/// Prints the rows of each file, made by `line` of a row's number and its word.
fn say(arguments: &Arguments, line: fn(usize, u32) -> String) -> Result<bool, Problem> {
    let inputs = Inputs::of(arguments)?;
    files::say_each(&inputs, |input, file| {
        let (text, complaint, good) = match read(file)? {
            Ok(Cells { rows, note }) => {
                let lines = rows.iter().enumerate();
                let lines: String = lines.map(|(row, &word)| line(row, word) + "\n").collect();
                let text = [inputs.heading(input), lines.into_bytes()].concat();
                (text, note, true)
            }
            Err(complaint) => (Vec::new(), Some(complaint), false),
        };
        Ok(Said {
            text,
            complaint,
            good,
        })
    })
}

/// Writes the picture of one crop.
fn draw(arguments: Arguments) -> Result<bool, Problem> {
    let (path, options) = arguments.one()?;
    let failed = |reason: String| Problem::Failed(of_file(&path, &reason));
    let read = read(&files::read_one(&path)?).map_err(|unknown| failed(unknown.to_string()))?;
    let cells = read.map_err(failed)?;
    let name = Path::new(&path).display().to_string();
    let picture = picture::of(&name, &cells);
    deliver(picture.as_bytes(), options.output.as_deref())?;
    if let Some(note) = cells.note {
        complain(&of_file(&path, &note));
    }
    Ok(true)
}

/// What was read of a crop.
struct Cells {
    rows: [u32; CELL_ROWS],
    /// In words, that some of them are read too high up.
    note: Option<String>,
}

/// The cells of a crop file, or in words why there are none.
fn read(file: &[u8]) -> Result<Result<Cells, String>, Unknown> {
    let mut words = vec![0; crops::words_of(file)];
    let mut rows = [0; CELL_ROWS];
    let answer = bullseye::cells_file(file, &mut words, &mut rows);
    let meaning = crops::cells_meaning(answer)?;
    Ok(match answer {
        0 => Ok(Cells {
            rows,
            note: too_high(&words, file),
        }),
        BLANK => Err(format!("no cells: {answer} {meaning}")),
        _ => Err(format!("refused: {answer} {meaning}")),
    })
}

/// That rows of cells are read too high up: a row past the rectangle's height, counted from the crop's top, is held to the last one
/// before it.
fn too_high(words: &[u64], file: &[u8]) -> Option<String> {
    let (width, _) = crops::dimensions(file)?;
    let mut rows = words.chunks(crops::row_words(width));
    let has_black = |row: &[u64]| row.iter().any(|&word| word != 0);
    let last = rows.clone().rposition(has_black)?;
    let first = rows.position(has_black)?;
    let height = last - first + 1;
    let place = |row: usize| first + (row * height + height / 2) / CELL_ROWS;
    let held = (0..CELL_ROWS).filter(|&row| place(row) >= height).count();
    (held > 0).then(|| {
        format!(
            "rows of cells are read too high up ({held} of {CELL_ROWS}): the first black row is {first}, not 0; \
cut the crop at the top"
        )
    })
}

fn is_black(word: u32, column: usize) -> bool {
    word >> column & 1 != 0
}

/// A row as it lies: odd ones half a cell to the right.
fn line(row: usize, word: u32) -> String {
    let cell = |column| if is_black(word, column) { "#" } else { "." };
    let cells: Vec<&str> = (0..CELL_COLUMNS).map(cell).collect();
    " ".repeat(row % 2) + &cells.join(" ")
}

fn hex_line(_: usize, word: u32) -> String {
    format!("{word:08x}")
}
