//! The row that the manual draws, its runs and its windows, against the readings of the row search.
use super::{INDENT, document};
use oracle::generate::RowSearch;
use oracle::rows::compared;
use oracle::second::{Run, passes_from, row_runs};

/// Where a drawn line's columns begin.
const NAME: usize = 9;
const WIDTH: u32 = 35;
const HEIGHT: u32 = 33;
const START: u32 = 6;
const LIMIT: u32 = WIDTH - 6;
const ELEVEN: usize = 11;

/// The drawn lines: what stands before the columns, and what stands in and after them.
fn drawn() -> Vec<(String, String)> {
    let text = document("docs/MANUAL.md");
    let (_, section) = text
        .split_once("## The windows of a row")
        .expect("the section");
    let lines = section.lines().filter_map(|line| line.strip_prefix(INDENT));
    lines
        .map(|line| line.split_at(NAME))
        .map(|(name, rest)| (name.trim().into(), rest.into()))
        .collect()
}

/// The drawn line of this name.
fn line(name: &str) -> String {
    let found = drawn().into_iter().find(|(own, _)| own == name);
    found.unwrap_or_else(|| panic!("no line {name}")).1
}

/// The search of the drawn pixels.
fn search() -> RowSearch {
    let mut words = vec![0; crops::image_words(WIDTH, HEIGHT)];
    let pixels = line("pixels");
    assert_eq!(pixels.len(), WIDTH as usize);
    for (column, pixel) in (0..).zip(pixels.chars()) {
        match pixel {
            '#' => crops::set_pixel(&mut words, WIDTH, column, 0),
            other => assert_eq!(other, '.'),
        }
    }
    RowSearch {
        family: "drawn",
        width: WIDTH,
        height: HEIGHT,
        words,
        row: 0,
        start: START,
    }
}

fn runs() -> Vec<Run> {
    row_runs(&search().words, WIDTH, HEIGHT, 0, START)
}

fn letter(place: usize) -> char {
    char::from(b'a' + place as u8)
}

#[test]
fn the_runs_are_drawn() {
    let mut letters = " ".repeat(START as usize);
    for (place, run) in runs().iter().enumerate() {
        letters.extend((0..run.length).map(|_| letter(place)));
    }
    assert_eq!(line("runs"), letters);
    let digits: String = (0..WIDTH).map(|column| (column % 10).to_string()).collect();
    assert_eq!(line(""), digits);
}

#[test]
fn the_windows_are_drawn() {
    let runs = runs();
    let mut windows = Vec::new();
    for place in 0..runs.len() - ELEVEN {
        let (first, closing) = (runs[place].first, runs[place + ELEVEN].first);
        if runs[place].colour && passes_from(&runs, place) && closing < LIMIT {
            windows.push(place);
        }
        let name = format!("{} to {}", letter(place), letter(place + 10));
        let Some((_, rest)) = drawn().into_iter().find(|(own, _)| *own == name) else {
            assert!(!runs[place].colour, "{name}: it is not drawn");
            continue;
        };
        let bar = " ".repeat(first as usize) + &"-".repeat((closing - first) as usize) + "|";
        let said = rest.strip_prefix(&bar).expect("hyphens and a bar").trim();
        let expected = match windows[..] {
            [.., last] if last != place => "no window: ",
            [] => "no window: ",
            [_] => "the window: it is the leftmost",
            _ => "a window, further right",
        };
        assert!(said.starts_with(expected), "{name}: {said}");
        let white = said.ends_with(&format!("run {} is white", letter(place)));
        assert_eq!(white, !runs[place].colour, "{name}: {said}");
    }
    assert_eq!(windows, [4, 6]);
}

#[test]
fn the_leftmost_window_is_found() {
    let (window, marks) = compared(&search()).expect("no reading differs");
    assert_eq!(window, Some((19, 6, [1; ELEVEN])));
    assert_eq!(marks[0], (1 << 26) - (1 << 6));
    assert!(marks[1..].iter().all(|word| *word == 0));
}
