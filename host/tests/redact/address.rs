//! Lines of an address beside, above, under and across symbols.
use super::{
    text::{LARGE, SMALL, Text},
    *,
};
use crops::places::CLASS;
use std::{env, fs};

/// Where the text stands.
const PLACES: [&str; 4] = ["beside", "above", "under", "across"];

/// Between the symbol's crop and the text.
const GAP: u32 = 8;

/// A symbol's crop with text added, and where the text's black pixels are.
struct Addressed {
    picture: Picture,
    text: Vec<(u32, u32)>,
}

fn addressed(symbol: &Picture, text: &Text, place: &str) -> Addressed {
    let (width, height) = (symbol.width, symbol.height);
    let (across, down) = (text.width + GAP, text.height() + GAP);
    let (width, height, symbol_at, text_at) = match place {
        "beside" => (width + across, height, (0, 0), (width + GAP, height / 2)),
        "above" => (width.max(across), height + down, (0, down), (0, 0)),
        "under" => (width.max(across), height + down, (0, 0), (0, height + GAP)),
        _ => (width.max(across), height, (0, 0), (0, height * 3 / 4)),
    };
    let mut picture = Picture::white(width, height);
    for (x, y) in symbol.pixels().filter(|&(x, y)| symbol.is_black(x, y)) {
        crops::set_pixel(&mut picture.words, width, x + symbol_at.0, y + symbol_at.1);
    }
    let inside = text.pixels().map(|(x, y)| (x + text_at.0, y + text_at.1));
    let text: Vec<_> = inside
        .filter(|&(x, y)| x < width && y < height && !picture.is_black(x, y))
        .collect();
    for &(x, y) in &text {
        crops::set_pixel(&mut picture.words, width, x, y);
    }
    Addressed { picture, text }
}

/// The example, so many symbols that Zint drew and so many generated ones, with each text in each place.
fn all(zint: usize, generated: u64) -> Vec<Addressed> {
    let root = concat!(env!("CARGO_MANIFEST_DIR"), "/..");
    let read = |name: &str| fs::read(format!("{root}/{name}")).expect(name);
    let stored = oracle::vectors::read(&read("crates/replay/stdin"));
    let drawn = stored.iter().filter(|one| one.name.starts_with("zint"));
    let mut files = vec![read("examples/parcel.crop")];
    files.extend(drawn.map(|one| one.file.clone()).take(zint));
    files.extend((0..generated).map(|seed| oracle::generate::family("symbols", seed).file()));
    let mut all = Vec::new();
    for symbol in files.iter().map(|file| Picture::of_file(file)) {
        for text in [&LARGE, &SMALL] {
            all.extend(PLACES.map(|place| addressed(&symbol, text, place)));
        }
    }
    all.retain(|one| one.picture.search().report.kept > 0);
    all
}

impl Addressed {
    /// The text's pixels that are black in a picture.
    fn left(&self, picture: &Picture) -> Vec<(u32, u32)> {
        let black = |&(x, y): &(u32, u32)| picture.is_black(x, y);
        self.text.iter().copied().filter(black).collect()
    }
}

/// The manual's example is the other one with both lines; with EXAMPLES=write in the environment it is written.
#[test]
fn the_example_is_a_symbol_with_an_address() {
    let examples = concat!(env!("CARGO_MANIFEST_DIR"), "/../examples");
    let symbol = Picture::of_file(&fs::read(format!("{examples}/parcel.crop")).expect("a crop"));
    let one = addressed(&symbol, &LARGE, "under").picture;
    let both = addressed(&one, &SMALL, "under").picture;
    let file = crops::pack(&both.words, both.width, both.height);
    let path = format!("{examples}/address.crop");
    if env::var_os("EXAMPLES").is_some_and(|what| what == "write") {
        fs::write(&path, &file).expect("it can be written");
    }
    assert!(fs::read(&path).expect("a crop") == file, "{path}");
}

#[test]
fn nothing_of_an_address_is_left_outside_the_boxes() {
    let all = all(12, 60);
    assert!(all.len() > 300, "{}", all.len());
    for one in &all {
        let found = one.picture.search();
        let (after, _) = one.picture.redacted(Extent::Outside);
        for (x, y) in one.left(&after) {
            assert!(found.in_a_box(x, y), "{x} {y}");
        }
    }
}

#[test]
fn nothing_of_an_address_is_left_that_the_search_does_without() {
    let all = all(2, 10);
    assert!(all.len() > 40, "{}", all.len());
    for one in &all {
        let (after, done) = one.picture.redacted(Extent::Least);
        assert!(done.least);
        for (x, y) in one.left(&after) {
            assert!(!after.does_without(x, y), "{x} {y}");
        }
    }
}

/// Why this is needed: a blanked crop has every second row of a text.
#[test]
fn an_address_is_left_in_a_blanked_crop() {
    let one = addressed(&all(0, 0)[0].picture, &LARGE, "above");
    let marks = one.picture.search().marks;
    let read = |&&(x, y): &&(u32, u32)| crops::pixel(&marks, one.picture.width, x, y);
    let kept = one.text.iter().filter(read).count();
    assert!(3 * kept > one.text.len(), "{kept} of {}", one.text.len());
}

/// What a redaction is not worth: a picture with its black pixels and a second eye gives another class first.
#[test]
fn another_picture_with_this_black_gives_another_class() {
    let symbol = addressed(&all(0, 0)[0].picture, &SMALL, "under").picture;
    let (mut redacted, _) = symbol.redacted(Extent::Least);
    let first_class = |picture: &Picture| picture.search().records[CLASS];
    assert_eq!(first_class(&redacted), first_class(&symbol));
    let (x, y) = (symbol.width - 40, 92);
    for (dx, dy) in (0..23).flat_map(|dy| (0..23).map(move |dx| (dx, dy))) {
        let ring = (dx as u32).abs_diff(11).max((dy as u32).abs_diff(11)) / 2;
        if ring % 2 == 1 {
            crops::set_pixel(&mut redacted.words, symbol.width, x + dx - 11, y + dy - 11);
        }
    }
    assert_eq!(redacted.search().report.kept, 2);
    assert_ne!(first_class(&redacted), first_class(&symbol));
}
