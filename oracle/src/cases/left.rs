//! Left sides of cases: crops of every family, answer, outcome and class, small ones, and for each of them calls of every entry with
//! lengths, kinds, dimensions and bits that are right and wrong. What a rule adds comes last, so that the cases before it stay.

use std::collections::BTreeMap;

use crops::cases::Stock;
use crops::places::{CLASS, OUTCOME};
use crops::{
    HEADER_BYTES, LEAST_SIDE, RECORD_WORDS, Report, dimensions, image_words, pack, set_pixel,
    words_of,
};

use super::{cells, ellipses};
use crate::generate::{self, Random};
use crate::second;

/// Files of this many bytes or more are left out, but for those at the limits.
pub const TOO_LONG: usize = 1_800;

/// How many crops are taken of a family with one answer, outcome and class, and how many files of a refusal.
const OF_A_ROW: usize = 3;
const OF_A_REFUSAL: usize = 14;

/// Calls beside the five that each crop has.
const MORE: usize = 5;

/// Lengths of a record buffer: none, one, several, the program's, and beyond what a search holds.
pub const RECORDS: [usize; 12] = [
    0, 39, 40, 41, 79, 80, 120, 481, 1480, 16_000, 40_960, 41_003,
];

/// What is changed of an image in words at the edges of each number; the crop has 33 by 33 pixels.
pub const CHANGES: [&str; 15] = [
    "size=32x33",
    "size=33x32",
    "size=34x33",
    "size=64x33",
    "size=65x33",
    "size=2048x250",
    "size=2048x251",
    "size=2049x33",
    "cut=0",
    "cut=32",
    "cut=34",
    "flip=0",
    "flip=32",
    "flip=33",
    "flip=63",
];

/// Dimensions at the limits, and far beyond them.
const SIDES: [u32; 13] = [0, 32, 33, 34, 63, 64, 65, 250, 251, 2048, 2049, 4096, !0];

/// The first lines, for the reader.
const HEADING: &str = "\
# Calls of the entries and what is seen after them. `lefts` makes the left sides, `cases --write` the right sides (oracle/README.md).
";

/// The crops' text and the left sides' text, from this seed on.
pub fn made(seed: u64, seeds: u64) -> (String, String) {
    let (searched, filling) = (files(seed, seeds), cells::files(seed, seeds));
    let checked = ellipses::files(seed, seeds);
    let all = || searched.iter().chain(&filling).zip(1..);
    let last = searched.len() + filling.len();
    let crops = all().chain(checked.iter().zip(last + 1..));
    let crops = crops.map(|(file, id)| Stock::line(&id.to_string(), file));
    let mut random = Random::new(seed);
    let mut lines: Vec<String> = Vec::new();
    for (file, id) in searched.iter().zip(1..) {
        lines.extend(calls(&mut random, id, file));
    }
    for (file, id) in all() {
        lines.extend(cells::calls(&mut random, id, file));
    }
    for id in [1, searched.len() + 1] {
        lines.extend(cells::edges(id));
    }
    for (file, id) in checked.iter().zip(last + 1..) {
        lines.extend(ellipses::calls(&mut random, id, file));
    }
    for (file, id) in searched.iter().zip(1..) {
        lines.push(ellipses::call(&mut random, id, file));
    }
    lines.extend(ellipses::edges(1));
    (
        crops.collect(),
        HEADING.to_string() + &lines.join("\n") + "\n",
    )
}

fn files(seed: u64, seeds: u64) -> Vec<Vec<u8>> {
    let mut files = vec![pack(&[0; 33], LEAST_SIDE, LEAST_SIDE)];
    files.extend(limits());
    files.extend(refused(seed, seeds));
    let kept = |family, report: Report, records: &[u32]| {
        let full = report.answer == 7;
        Some((
            family,
            full,
            report.kept > 0,
            records[OUTCOME],
            records[CLASS],
        ))
    };
    files.extend(searched(seed, seeds, kept));
    let set_aside = |family, report: Report, _: &[u32]| (report.answer == 9).then_some(family);
    for file in searched(seed, seeds, set_aside) {
        if !files.contains(&file) {
            files.push(file);
        }
    }
    files
}

/// A crop whose black pixels are those where `black` holds.
pub fn painted(width: u32, height: u32, black: impl Fn(u32, u32) -> bool) -> Vec<u8> {
    let mut words = vec![0; image_words(width, height)];
    for (x, y) in (0..height).flat_map(|y| (0..width).map(move |x| (x, y))) {
        if black(x, y) {
            set_pixel(&mut words, width, x, y);
        }
    }
    pack(&words, width, height)
}

/// More candidates than a search holds, the longest sides, the most words, and headers of one more.
fn limits() -> Vec<Vec<u8>> {
    let eye = |x: u32, y: u32| {
        let along = |a: u32, b: u32| a.abs_diff(b) <= 5 && a.abs_diff(b) % 2 == 1;
        (y == 20 && along(x, 20)) || (x == 20 && along(y, 20))
    };
    vec![
        painted(200, 220, |x, y| (x + y) % 2 == 0),
        painted(2048, 40, eye),
        painted(40, 2048, eye),
        painted(512, 1000, eye),
        painted(576, 889, |_, _| false)[..HEADER_BYTES].to_vec(),
        painted(2048, 251, |_, _| false)[..HEADER_BYTES].to_vec(),
        painted(2049, 33, |_, _| false)[..HEADER_BYTES].to_vec(),
    ]
}

/// Damaged files, some for each number.
fn refused(seed: u64, seeds: u64) -> Vec<Vec<u8>> {
    let mut taken: BTreeMap<u32, usize> = BTreeMap::new();
    let mut files = Vec::new();
    for file in (seed..seed + seeds).map(generate::bad_file) {
        let count = taken.entry(second::check(&file)).or_default();
        if file.len() < TOO_LONG && *count < OF_A_REFUSAL {
            *count += 1;
            files.push(file);
        }
    }
    files
}

/// Crops that are searched, some for each row that a family, a report and the records come to.
fn searched<Row: Ord>(
    seed: u64,
    seeds: u64,
    row: impl Fn(&'static str, Report, &[u32]) -> Option<Row>,
) -> Vec<Vec<u8>> {
    let mut taken: BTreeMap<Row, usize> = BTreeMap::new();
    let mut files = Vec::new();
    for crop in (seed..seed + seeds).map(generate::crop) {
        let file = crop.file();
        if file.len() >= TOO_LONG {
            continue;
        }
        let mut marks = vec![0; crop.words.len()];
        let mut records = vec![0; RECORD_WORDS * 12];
        let (width, height) = (crop.width, crop.height);
        let report =
            second::search_words(&crop.words, width, height, &mut records, &mut marks, false);
        let Some(row) = row(crop.family, report, &records) else {
            continue;
        };
        let count = taken.entry(row).or_default();
        if *count < OF_A_ROW {
            *count += 1;
            files.push(file);
        }
    }
    files
}

/// The calls of a crop: one of each entry, then some in which one thing is changed.
fn calls(random: &mut Random, id: usize, file: &[u8]) -> Vec<String> {
    let n = words_of(file);
    let mut calls = vec![
        format!("host file={id}"),
        format!("program file={id}"),
        format!("unpack file={id} unpack={n}"),
        format!("search file={id} unpack={n} marks={n} records=480"),
    ];
    if file.len() < HEADER_BYTES {
        return calls;
    }
    calls.push(format!("search words={id} marks={n} records=16000"));
    for _ in 0..MORE {
        calls.push(match random.one_in(2) {
            true => file_call(random, id, n),
            false => words_call(random, id, file),
        });
    }
    calls
}

/// The right length, or one that is wrong.
pub fn length(random: &mut Random, n: usize) -> usize {
    random.pick(&[n, n, n, n.saturating_sub(1), n + 1, 2 * n, 0])
}

/// The file's own kind, or one that is wrong.
pub fn kind(random: &mut Random) -> String {
    match random.below(3) {
        0 => format!(" kind={}", random.below(16)),
        1 => " kind=2".to_string(),
        _ => String::new(),
    }
}

fn file_call(random: &mut Random, id: usize, n: usize) -> String {
    let kind = kind(random);
    let [unpack, marks] = [(); 2].map(|()| length(random, n));
    let records = random.pick(&RECORDS);
    match random.below(6) {
        0 => format!("host file={id}{kind}"),
        1 => format!("program file={id}{kind}"),
        2 => format!("unpack file={id} unpack={unpack}{kind}"),
        3 => format!("search file={id} unpack={n} marks={n} records={records}"),
        _ => format!("search file={id} unpack={unpack} marks={marks} records={records}{kind}"),
    }
}

fn words_call(random: &mut Random, id: usize, file: &[u8]) -> String {
    let n = words_of(file);
    let marks = length(random, n);
    let records = random.pick(&RECORDS);
    match random.below(6) {
        0 => format!(
            "search words={id} size={} marks={n} records={records}",
            size(random, file)
        ),
        1 => {
            let cut = length(random, n);
            format!("search words={id} cut={cut} marks={cut} records={records}")
        }
        2 | 3 if n > 0 => {
            let bit = random.below(64 * n as u32);
            format!("search words={id} flip={bit} marks={n} records={records}")
        }
        _ => format!("search words={id} marks={marks} records={records}"),
    }
}

/// Dimensions at the limits, or others that need as many words.
pub fn size(random: &mut Random, file: &[u8]) -> String {
    match dimensions(file) {
        Some((width, height)) if width > 64 && random.one_in(2) => {
            let row = width.div_ceil(64);
            format!("{}x{height}", 64 * row - random.below(64))
        }
        Some((_, height)) if random.one_in(2) => {
            format!("{}x{height}", LEAST_SIDE + random.below(32))
        }
        _ => format!("{}x{}", random.pick(&SIDES), random.pick(&SIDES)),
    }
}
