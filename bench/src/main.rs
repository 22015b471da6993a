//! Times the product against the source on the same crops, in one run, and prints tables of their ratios.
//!
//! What is timed. The product is `maxicode_search_words` of the archive that the host links: it checks image and buffers,
//! clears the marks, searches, marks every bit that it reads, clears and fills the records, and counts the marks. The
//! source is the judge's build of it, on an image prepared before the clock starts, and so without checks: it too clears
//! and fills the records. The logged Rust clears its log, marks every bit that it reads there, and counts the marks, as a
//! search that must report them has to; the Rust without its log does none of this. All buffers are made beforehand.
//!
//! With the ellipse check both have it on, and the product is timed without it too.
//!
//! Of cells the product is `maxicode_cells_words`, which checks image and buffer. The source is its `read_bits` on a prepared image, which
//! makes a bit matrix of its own; that is put into 33 words only to be compared. No marks are asked for: the logged Rust sets those of the pixels
//! that it samples, and neither clears nor counts them.
//!
//! In each round all run once, one after the other. A time is the median over the rounds, a ratio the median of the
//! rounds' ratios, its spread what nine of ten rounds lie between. Before the clock starts the results are compared: the
//! report, every word of the records, every mark; the answer and every cell; and of a phase or step what the timed function itself
//! gives.

mod cells;
mod phases;
mod sets;
mod source;
mod steps;
mod table;
mod whole;

use std::process::ExitCode;

use bench::clock;
use sets::Set;

const HELP: &str = "\
Usage: bench [whole | ellipse | phases | cells | steps] [TEXT]

Times the product and the Rust on the same crops, and prints Markdown tables:
  whole   the whole search of each set of crops: microseconds a crop, and the ratios of the product's time to the Rust's,
          with its log and without
  ellipse the same with the ellipse check, of these sets, stretched eyes and long walks; and the ratio to the product without the check
  phases  the phases of the search apart: microseconds a crop, and the same two ratios in brackets
  cells   the cells of a symbol that fills the crop: microseconds a crop, and the same two ratios
  steps   each proved step, in nanoseconds an item; the ratio is to the Rust with its log
Without one of these: whole, ellipse, phases, cells. TEXT: only the sets or steps with this text in their name.
";

/// The sets whose name has the text.
fn named(mut sets: Vec<Set>, text: &str) -> Vec<Set> {
    sets.retain(|set| set.name.contains(text));
    sets
}

/// Prints a table of the sets or steps whose name has the text; none if there is no such table.
fn print(table: &str, text: &str) -> Option<()> {
    match table {
        "whole" => whole::print(&named(sets::searched(), text), false),
        "ellipse" => whole::print(&named(sets::checked(), text), true),
        "phases" => phases::print(&named(sets::searched(), text)),
        "cells" => cells::print(&named(sets::read(), text)),
        "steps" => steps::print(text),
        _ => return None,
    }
    Some(())
}

/// Prints whole, ellipse, phases and cells, a blank line between two.
fn print_all() -> Option<()> {
    print("whole", "")?;
    println!();
    print("ellipse", "")?;
    println!();
    print("phases", "")?;
    println!();
    print("cells", "")
}

fn main() -> ExitCode {
    let words: Vec<String> = std::env::args().skip(1).collect();
    let words: Vec<&str> = words.iter().map(String::as_str).collect();
    let printed = match words[..] {
        ["--help" | "-h"] => {
            print!("{HELP}");
            Some(())
        }
        [] => print_all(),
        [table] => print(table, ""),
        [table, text] => print(table, text),
        _ => None,
    };
    if printed.is_none() {
        eprint!("bench: unknown arguments\n\n{HELP}");
        return ExitCode::from(2);
    }
    ExitCode::SUCCESS
}
