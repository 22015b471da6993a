//! Rows for the row search: noise, runs next to the edges of the width test, and windows at both ends of the row.

use super::canvas::Canvas;
use super::random::Random;
use super::shares::{Family, picked};

/// Name, share of 100 and maker of each family.
pub const MAKERS: [Family<Strip>; 11] = [
    ("noise", 14, noise),
    ("equal runs", 18, equal_runs),
    ("one window", 8, one_window),
    ("failing runs first", 14, failing_first),
    ("two windows", 8, two_windows),
    ("closing", 12, closing),
    ("cut by the start", 10, cut_by_the_start),
    ("white", 4, white),
    ("black", 2, black),
    ("right edge", 4, right_edge),
    ("begins white", 6, begins_white),
];

/// Parts the numbers of `row_search` from those of other makers.
const ROWS_SALT: u64 = 0x72_6f77_7320_6f66;

const HEIGHT: i32 = 33;

/// Indices of the even runs and of the odd ones that the width test compares.
const GROUPS: [&[usize]; 2] = [&[0, 2, 4, 6, 8, 10], &[1, 3, 7, 9]];

/// An image, a row of it, and the column that the row is searched from.
#[derive(Clone, Debug, PartialEq, Eq)]
pub struct RowSearch {
    pub family: &'static str,
    pub width: u32,
    pub height: u32,
    pub words: Vec<u64>,
    pub row: u32,
    pub start: u32,
}

/// The row search of a seed, of a family that the seed picks.
pub fn row_search(seed: u64) -> RowSearch {
    let mut random = Random::new(seed ^ ROWS_SALT);
    let (family, _, maker) = MAKERS[picked(&mut random, &MAKERS)];
    let strip = maker(&mut random);
    let mut canvas = Canvas::new(strip.width(), HEIGHT);
    canvas.noise(&mut random, 32768);
    let row = match random.below(4) {
        0 => random.pick(&[0, 1, 5, 6, 7, HEIGHT - 7, HEIGHT - 6, HEIGHT - 1]),
        _ => random.between(0, HEIGHT - 1),
    };
    for (column, black) in (0..).zip(&strip.colours) {
        canvas.set(column, row, *black);
    }
    RowSearch {
        family,
        width: canvas.width,
        height: canvas.height,
        words: canvas.words,
        row: row as u32,
        start: strip.start as u32,
    }
}

/// The colours of a row, and the column that it is searched from.
pub struct Strip {
    colours: Vec<bool>,
    start: i32,
}

impl Strip {
    /// White, from any start.
    fn new(random: &mut Random) -> Strip {
        let width = width(random);
        let last = width - 7;
        let start = match random.below(6) {
            0 => random.pick(&[0, 0, 1, 5, 6, 7]),
            1 => last - random.between(0, 3),
            2 => random.between(0, last),
            _ => random.between(0, 12),
        };
        Strip {
            colours: vec![false; width as usize],
            start,
        }
    }

    fn width(&self) -> i32 {
        self.colours.len() as i32
    }

    /// Paints runs from a column on, the first one black, and gives the column after them. What lies outside the row is lost.
    fn paint(&mut self, first: i32, lengths: &[i32]) -> i32 {
        let mut column = first;
        let mut black = true;
        for length in lengths {
            for at in column.max(0)..(column + length).min(self.width()) {
                self.colours[at as usize] = black;
            }
            column += length;
            black = !black;
        }
        column
    }

    /// Starts at a column, or at the nearest that a search may start from.
    fn start_at(&mut self, column: i32) {
        self.start = column.clamp(0, self.width() - 7);
    }

    /// Mostly starts somewhere up to a column, so that what begins there is met whole.
    fn start_before(&mut self, random: &mut Random, column: i32) {
        if !random.one_in(6) {
            let back = random.between(0, column.max(0));
            self.start_at(column - random.pick(&[0, 1, back, back]));
        }
    }

    /// A column from which runs of this width would close before width - 6, if there is one.
    fn place_of(&self, random: &mut Random, lengths: &[i32]) -> i32 {
        let sum: i32 = lengths.iter().sum();
        random.between(0, self.width() - 7 - sum)
    }

    /// Eleven runs that often pass, as wide as the row has room for.
    fn eleven(&self, random: &mut Random) -> Vec<i32> {
        let widest = ((self.width() - 7) / 11).max(1);
        let module = match random.below(8) {
            0 => random.between(1, widest),
            1 => 1,
            _ => random.between(1, widest.min(4)),
        };
        let mut runs = jittered(random, module, 11);
        if random.one_in(3) {
            put_at_an_edge(random, &mut runs);
        }
        runs
    }
}

/// Mostly 33 to 150, often next to a multiple of 64, rarely large.
fn width(random: &mut Random) -> i32 {
    match random.below(32) {
        0 => random.pick(&[1984, 2047, 2048, 512, 1024]),
        1 => random.between(150, 700),
        2..=5 => random.pick(&[63, 64, 65, 127, 128, 129, 192]),
        6..=11 => random.between(33, 40),
        _ => random.between(33, 150),
    }
}

/// So many runs of about a module.
fn jittered(random: &mut Random, module: i32, count: usize) -> Vec<i32> {
    let rarely = random.between(2, 12) as u32;
    let run = |_| match random.one_in(rarely) {
        true => (module + random.pick(&[1, -1, 1, 2])).max(1),
        false => module,
    };
    (0..count).map(run).collect()
}

/// One of the eleven runs just passes, or just fails, with the others of its group.
fn put_at_an_edge(random: &mut Random, runs: &mut [i32]) {
    let group = random.pick(&GROUPS);
    let at = random.pick(group);
    let others: i32 = group.iter().map(|place| runs[*place]).sum::<i32>() - runs[at];
    let least = others / 9 + 1;
    let most = (3 * others - 1) / 7;
    runs[at] = random.pick(&[least - 1, least, most, most + 1]).max(1);
}

/// Independent pixels of 1 to 99 percent black.
fn noise(random: &mut Random) -> Strip {
    let mut strip = Strip::new(random);
    let percent = random.pick(&[1, 5, 20, 40, 50, 60, 80, 95, 99]);
    for colour in &mut strip.colours {
        *colour = random.below(100) < percent;
    }
    strip
}

/// Runs of about one module through the whole row.
fn equal_runs(random: &mut Random) -> Strip {
    let mut strip = Strip::new(random);
    let module = random.between(1, 4);
    let runs = jittered(random, module, strip.colours.len());
    strip.paint(random.between(-module, module), &runs);
    strip
}

/// Eleven runs in a white row.
fn one_window(random: &mut Random) -> Strip {
    let mut strip = Strip::new(random);
    let runs = strip.eleven(random);
    let first = strip.place_of(random, &runs);
    strip.paint(first, &runs);
    strip.start_before(random, first);
    strip
}

/// Some runs of any widths, then eleven.
fn failing_first(random: &mut Random) -> Strip {
    let mut strip = Strip::new(random);
    let count = random.pick(&[2, 2, 4, 4, 6, 8, 10, 12]);
    let widest = random.between(1, 9);
    let mut runs: Vec<i32> = (0..count).map(|_| random.between(1, widest)).collect();
    runs.extend(strip.eleven(random));
    let first = strip.place_of(random, &runs);
    strip.paint(first, &runs);
    strip.start_before(random, first);
    strip
}

/// Eleven runs, a white run, and eleven runs.
fn two_windows(random: &mut Random) -> Strip {
    let mut strip = Strip::new(random);
    let mut runs = strip.eleven(random);
    runs.push(random.between(1, 12));
    runs.extend(jittered(random, 1, 11));
    let first = strip.place_of(random, &runs);
    strip.paint(first, &runs);
    strip.start_before(random, first);
    strip
}

/// Eleven runs that close next to column width - 7.
fn closing(random: &mut Random) -> Strip {
    let mut strip = Strip::new(random);
    let runs = strip.eleven(random);
    let closing = strip.width() - random.pick(&[8, 7, 7, 6, 6, 5, 4]);
    let first = closing - runs.iter().sum::<i32>();
    strip.paint(first, &runs);
    strip.start_before(random, first);
    strip
}

/// Eleven runs, the first longer than the others, and a start in it.
fn cut_by_the_start(random: &mut Random) -> Strip {
    let mut strip = Strip::new(random);
    let mut runs = strip.eleven(random);
    let first = strip.place_of(random, &runs);
    let more = random.between(1, 9);
    runs[0] += more;
    strip.paint(first - more, &runs);
    strip.start_at(first - more + random.between(0, runs[0] - 1));
    strip
}

/// White, or black from a column near the right end on.
fn white(random: &mut Random) -> Strip {
    let mut strip = Strip::new(random);
    let black = random.pick(&[0, 0, 1, 9]);
    let first = strip.width() - random.pick(&[8, 7, 6, 6, 5, 1]);
    strip.paint(first, &[black]);
    strip
}

/// Black, but for a white run or two, or none.
fn black(random: &mut Random) -> Strip {
    let mut strip = Strip::new(random);
    strip.colours.fill(true);
    for _ in 0..random.below(3) {
        let first = random.between(0, strip.width());
        strip.paint(first, &[0, random.between(1, 9)]);
    }
    strip
}

/// Eleven runs that the right edge cuts, or a white run of up to five pixels between.
fn right_edge(random: &mut Random) -> Strip {
    let mut strip = Strip::new(random);
    let runs = strip.eleven(random);
    let end = strip.width() + random.pick(&[0, 0, 0, 1, 2, -1, -3, -5]);
    let first = end - runs.iter().sum::<i32>();
    strip.paint(first, &runs);
    strip.start_before(random, first);
    strip
}

/// Eleven runs of which the first is white, between long black ones; at times a window follows.
fn begins_white(random: &mut Random) -> Strip {
    let mut strip = Strip::new(random);
    let mut runs = vec![random.between(8, 20)];
    runs.extend(jittered(random, 1, 11));
    runs.push(random.between(4, 20));
    if random.one_in(2) {
        runs.push(random.between(1, 9));
        runs.extend(jittered(random, 1, 11));
    }
    let first = strip.place_of(random, &runs);
    strip.paint(first, &runs);
    strip.start_before(random, first);
    strip
}
