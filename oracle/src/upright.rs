//! Upright symbols that Zint drew, each cut to its black pixels, held against the modules that Zint means by them (zint/cells.py).

use std::collections::BTreeMap;

use crops::cases::Stock;
use crops::{CELL_COLUMNS, CELL_ROWS};

use crate::CellsWords;

const UPRIGHT: &str = include_str!("../zint/upright.txt");
const GRIDS: &str = include_str!("../zint/grids.txt");

const HEADER: &str = "\
| Size | Symbols | Cells as Zint's modules | Others in the bull's-eye | Others elsewhere |
|---|---|---|---|---|
";

/// An image, and the modules of its symbol: a word for each row, column c at bit c.
pub struct Symbol {
    pub name: &'static str,
    pub words: Vec<u64>,
    pub width: u32,
    pub height: u32,
    pub modules: [u32; CELL_ROWS],
}

/// How many cells are as the modules; of the others, how many lie in the bull's-eye and how many elsewhere.
#[derive(Clone, Copy, Debug, PartialEq, Eq, PartialOrd, Ord)]
pub struct Agreement {
    pub same: u32,
    pub eye: u32,
    pub elsewhere: u32,
}

/// The first word of each line, and the line.
fn lines(text: &'static str) -> impl Iterator<Item = (&'static str, &'static str)> {
    let first = |line: &'static str| line.split(' ').next().unwrap_or_default();
    text.lines().map(move |line| (first(line), line))
}

/// The modules of a line after its name.
fn modules(line: &str) -> [u32; CELL_ROWS] {
    let word = |digits| u32::from_str_radix(digits, 16).expect("a word in hexadecimal digits");
    let words: Vec<u32> = line.split(' ').skip(1).map(word).collect();
    words.try_into().expect("33 words")
}

/// The stored symbols.
pub fn stored() -> Vec<Symbol> {
    let grids: BTreeMap<_, _> = lines(GRIDS)
        .map(|(text, line)| (text, modules(line)))
        .collect();
    let stock = Stock::parse(UPRIGHT).unwrap_or_else(|problem| panic!("{problem}"));
    let symbol = |(name, _): (&'static str, _)| {
        let (words, width, height) = stock.image(name).expect("a crop of the stock");
        let (text, _) = name.split_once('-').expect("a text and a scale");
        Symbol {
            name,
            words,
            width,
            height,
            modules: grids[text],
        }
    };
    lines(UPRIGHT).map(symbol).collect()
}

/// Whether a cell has no module because the bull's-eye covers it: it is at most five steps from cell (14, 16), and not the one module
/// in that hexagon, (16, 11).
pub fn in_eye(x: u32, y: u32) -> bool {
    let (x, y) = (x as i32, y as i32);
    // Odd rows lie half a cell to the right: on a line of cells that slants to the right, column less half the row is constant.
    let (across, down) = (x - y / 2 - (14 - 16 / 2), y - 16);
    let steps = across.abs().max(down.abs()).max((across + down).abs());
    steps <= 5 && (x, y) != (16, 11)
}

impl Symbol {
    /// The symbol below so many white rows.
    pub fn lowered(&self, rows: u32) -> Symbol {
        let above = vec![0; crops::image_words(self.width, rows)];
        Symbol {
            words: [above, self.words.clone()].concat(),
            height: self.height + rows,
            ..*self
        }
    }

    /// The cells that an entry reads, held against the modules.
    pub fn agreement(&self, read: CellsWords) -> Agreement {
        let mut cells = [0; CELL_ROWS];
        let answer = read(&self.words, self.width, self.height, &mut cells);
        assert_eq!(answer, 0, "{}: the answer", self.name);
        let mut seen = Agreement {
            same: 0,
            eye: 0,
            elsewhere: 0,
        };
        for (y, (cell, module)) in (0..).zip(cells.iter().zip(&self.modules)) {
            for x in 0..CELL_COLUMNS as u32 {
                match (cell ^ module) >> x & 1 {
                    0 => seen.same += 1,
                    _ if in_eye(x, y) => seen.eye += 1,
                    _ => seen.elsewhere += 1,
                }
            }
        }
        seen
    }
}

/// The agreement of the stored symbols by size, in Markdown.
pub fn table(read: CellsWords) -> String {
    let mut rows: BTreeMap<_, u32> = BTreeMap::new();
    for symbol in stored() {
        let row = (symbol.width, symbol.height, symbol.agreement(read));
        *rows.entry(row).or_default() += 1;
    }
    let mut text = HEADER.to_string();
    for ((width, height, seen), symbols) in rows {
        let Agreement {
            same,
            eye,
            elsewhere,
        } = seen;
        text += &format!("| {width} × {height} | {symbols} | {same} | {eye} | {elsewhere} |\n");
    }
    text
}

/// That README.md has the table of an entry, and that no cell outside the bull's-eye differs.
pub fn documented(read: CellsWords) -> Result<(), String> {
    let table = table(read);
    for symbol in stored() {
        let seen = symbol.agreement(read);
        if seen.elsewhere != 0 {
            return Err(format!("{}: {seen:?}\n{table}", symbol.name));
        }
    }
    match include_str!("../README.md").contains(&table) {
        true => Ok(()),
        false => Err(format!("README.md has another table than\n{table}")),
    }
}
