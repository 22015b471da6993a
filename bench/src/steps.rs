//! The proved steps one by one against the source's with its log; neither clears its marks in the timed part.

use crops::places::OUTCOME;
use oracle::generate::{self, Crop, Random};
use oracle::harness::steps::{self, Candidate, Image, Prepared, Ranking};
use oracle::{MOST_CANDIDATES, RECORD_WORDS};

use crate::clock::{self, Ratio};
use crate::sets::{image, noise, painted, with_room, zint};

/// Why a step cannot refuse the inputs here.
const FITS: &str = "buffers and dimensions fit";

/// Prints the line of a step whose name has the text: times of both in nanoseconds an item, and their ratio.
fn compare<A, B>(
    text: &str,
    name: &str,
    items: u32,
    (mut a, mut ours): (impl FnMut() -> A, impl FnMut(A) -> u32),
    (mut b, mut theirs): (impl FnMut() -> B, impl FnMut(B) -> u32),
) {
    if !name.contains(text) {
        return;
    }
    assert_eq!(ours(a()), theirs(b()), "{name}: different results");
    let [ours, theirs] = clock::alternate([&mut || clock::time(a(), &mut ours), &mut || {
        clock::time(b(), &mut theirs)
    }]);
    let each = |times: &[f64]| clock::median(times) / f64::from(items);
    println!(
        "{name}: {:.2} ns against {:.2} ns, ratio {}",
        each(&ours),
        each(&theirs),
        Ratio::of(&ours, &theirs)
    );
}

/// For steps that need nothing prepared.
fn nothing() {}

/// Every pixel of every row by itself.
fn time_get(text: &str) {
    let crop = noise(2048, 250);
    let (columns, rows) = (crop.width, crop.height);
    let source = Prepared::new(image(&crop));
    let mut marks = vec![0; crop.words.len()];
    let ours = |()| {
        (0..rows)
            .map(|row| bench::count_row(image(&crop), &mut marks, row, columns).expect(FITS))
            .sum()
    };
    let theirs = |()| (0..rows).map(|row| source.count_row(row, columns)).sum();
    compare(
        text,
        "get, every pixel of every row",
        columns * rows,
        (nothing, ours),
        (nothing, theirs),
    );
}

/// The sweeps of a set of crops, one after the other.
fn time_sweep(text: &str, name: &str, crops: &[Crop]) {
    let pixels = crops.iter().map(|crop| crop.width * crop.height).sum();
    let capacity = |crop: &Crop| (crop.capacity_words / RECORD_WORDS).min(MOST_CANDIDATES);
    let sources: Vec<_> = crops
        .iter()
        .map(|crop| Prepared::new(image(crop)))
        .collect();
    let mut marks: Vec<_> = crops.iter().map(|crop| vec![0; crop.words.len()]).collect();
    let mut circles = vec![0; MOST_CANDIDATES * RECORD_WORDS];
    let ours = |()| {
        (crops.iter().zip(&mut marks))
            .map(|(crop, marks)| {
                let most = capacity(crop) as u32;
                bench::find_concentric_circles(image(crop), marks, &mut circles, most).expect(FITS)
            })
            .sum()
    };
    let theirs = |()| {
        (crops.iter().zip(&sources))
            .map(|(crop, source)| source.sweep(capacity(crop)))
            .sum()
    };
    compare(
        text,
        &format!("sweep, {name}"),
        pixels,
        (nothing, ours),
        (nothing, theirs),
    );
}

/// Candidates at one place, which are all kept, with runs of 1 to 12.
fn candidates(count: usize) -> Vec<Candidate> {
    let mut random = Random::new(count as u64);
    let mut runs = || [0; 11].map(|_| 1 + random.below(12));
    let one = |_| Candidate {
        centre: (100, 100),
        radius: 20,
        row_runs: runs(),
        column_runs: runs(),
    };
    (0..count).map(one).collect()
}

fn variance(candidate: &Candidate) -> f32 {
    steps::variance(candidate.row_runs, candidate.column_runs)
}

/// Candidates as the sweep leaves them, in a buffer of so many words.
pub fn records(candidates: &[Candidate], len: usize) -> Vec<u32> {
    let mut words = vec![0; len];
    for (candidate, record) in candidates.iter().zip(words.chunks_mut(RECORD_WORDS)) {
        record[..3].copy_from_slice(&[candidate.centre.0, candidate.centre.1, candidate.radius]);
        record[3..14].copy_from_slice(&candidate.row_runs);
        record[14..25].copy_from_slice(&candidate.column_runs);
    }
    words
}

/// The ranking of a list, as often as makes 1,024 candidates, in a buffer of as many records.
fn time_ranking(text: &str, name: &str, list: &[Candidate]) {
    let often = MOST_CANDIDATES / list.len();
    let words = records(list, list.len() * RECORD_WORDS);
    let source = Prepared::new(Image {
        words: &[],
        width: 1,
        height: 1,
    });
    let found = list.len() as u32;
    let ours = |mut copies: Vec<Vec<u32>>| {
        let kept = |words: &mut Vec<u32>| bench::keep_and_rank(words, found).expect(FITS);
        copies.iter_mut().map(kept).sum()
    };
    let theirs = |copies: Vec<Ranking>| copies.into_iter().map(Ranking::run).sum();
    compare(
        text,
        &format!("ranking, {name}"),
        (often * list.len()) as u32,
        (|| vec![words.clone(); often], ours),
        (
            || (0..often).map(|_| source.ranking(list)).collect(),
            theirs,
        ),
    );
}

/// The boxes of kept candidates that come to an outcome: 1 a turn, 0 none, 2 a lost centre.
fn time_box(text: &str, name: &str, outcome: u32) {
    let boxed = |crop: &Crop| {
        let (candidates, _) = steps::sweep(image(crop), MOST_CANDIDATES);
        let (first, _) = *steps::kept_and_ranked(&candidates).first()?;
        let Candidate { centre, radius, .. } = candidates[first as usize];
        (steps::box_symbol(image(crop), centre, radius).0.outcome == outcome)
            .then_some((centre, radius))
    };
    let named: Vec<_> = (0..)
        .map(generate::crop)
        .filter_map(|crop| boxed(&crop).map(|place| (crop, place)))
        .take(50)
        .collect();
    let sources: Vec<_> = named
        .iter()
        .map(|(crop, _)| Prepared::new(image(crop)))
        .collect();
    let mut marks: Vec<_> = named
        .iter()
        .map(|(crop, _)| vec![0; crop.words.len()])
        .collect();
    let mut fields = [0; RECORD_WORDS];
    let ours = |()| {
        (named.iter().zip(&mut marks))
            .map(|((crop, (centre, radius)), marks)| {
                bench::box_symbol(image(crop), marks, &mut fields, *centre, *radius).expect(FITS);
                fields[OUTCOME]
            })
            .sum()
    };
    let theirs = |()| {
        (named.iter().zip(&sources))
            .map(|((_, (centre, radius)), source)| source.box_symbol(*centre, *radius))
            .sum()
    };
    compare(
        text,
        &format!("box_symbol, {name}"),
        named.len() as u32,
        (nothing, ours),
        (nothing, theirs),
    );
}

/// An image of 2,048 by 250 pixels, with room for the most candidates.
fn wide(black: impl Fn(u32, u32) -> bool) -> Crop {
    with_room(painted(2048, 250, black), MOST_CANDIDATES)
}

fn time_sweeps(text: &str) {
    time_sweep(text, "blank", &[wide(|_, _| false)]);
    time_sweep(text, "black", &[wide(|_, _| true)]);
    for run in [1, 2, 3, 10] {
        let stripes = wide(|x, _| x / run % 2 == 0);
        time_sweep(text, &format!("runs of {run}"), &[stripes]);
    }
    let stripes = wide(|x, y| (x + y) / 5 % 2 == 0);
    time_sweep(text, "slanted stripes", &[stripes]);
    time_sweep(text, "noise", &[noise(2048, 250)]);
    for name in generate::FAMILIES {
        let crops: Vec<_> = (0..50).map(|seed| generate::family(name, seed)).collect();
        time_sweep(text, &format!("family {name}"), &crops);
    }
    time_sweep(text, "Zint's symbols", &zint());
}

fn time_rankings(text: &str) {
    for count in [10, 100, 1024] {
        time_ranking(text, &format!("{count} at random"), &candidates(count));
    }
    // strictly falling: what the source's sort does best after rising
    let mut falling = candidates(4096);
    falling.sort_by(|a, b| variance(b).total_cmp(&variance(a)));
    falling.dedup_by_key(|candidate| variance(candidate).to_bits());
    falling.truncate(1024);
    time_ranking(text, "1024 falling", &falling);
}

/// Prints the steps whose name has the text.
pub fn print(text: &str) {
    time_get(text);
    time_sweeps(text);
    time_rankings(text);
    time_box(text, "a turn", 1);
    time_box(text, "no turn", 0);
    time_box(text, "a lost centre", 2);
}
