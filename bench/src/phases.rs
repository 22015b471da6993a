//! The table of phases: each step of a search by itself, on the input that the step before it gives.

use std::hint::black_box;

use crops::places::OUTCOME;
use oracle::generate::Crop;
use oracle::harness::steps::{self, Candidate};
use oracle::{MOST_CANDIDATES, RECORD_WORDS, crop};

use crate::clock;
use crate::sets::{Set, image};
use crate::source::{Logged, Plain, Source, prepared};
use crate::steps::records;
use crate::{table, whole};

const HEADER: &str = "\
| Crops | Unpack | Sweep | Kept | Turn |
|---|---|---|---|---|";

/// Why a step cannot refuse the inputs here.
const FITS: &str = "buffers and dimensions fit";

/// A crop with the input of each phase.
struct Case<'a> {
    crop: &'a Crop,
    /// The file of a blank crop of the same size.
    blank: Vec<u8>,
    /// The sweep's, unless they are more than the records hold.
    candidates: Vec<Candidate>,
    /// Centre and radius of the kept ones, ranked.
    kept: Vec<((u32, u32), u32)>,
}

fn capacity(crop: &Crop) -> usize {
    (crop.capacity_words / RECORD_WORDS).min(MOST_CANDIDATES)
}

impl<'a> Case<'a> {
    fn of(crop: &'a Crop) -> Self {
        let (mut candidates, _) = steps::sweep(image(crop), capacity(crop));
        if candidates.len() > capacity(crop) {
            candidates.clear();
        }
        let place = |(index, _): (u32, f32)| {
            let Candidate { centre, radius, .. } = candidates[index as usize];
            (centre, radius)
        };
        let kept = match candidates.is_empty() {
            true => Vec::new(),
            false => (steps::kept_and_ranked(&candidates).into_iter())
                .map(place)
                .collect(),
        };
        Self {
            crop,
            blank: crops::pack(&vec![0; crop.words.len()], crop.width, crop.height),
            candidates,
            kept,
        }
    }
}

/// Stops unless the product's phases come to what the functions of the source that are timed come to.
fn agreed<S: Source>(case: &Case) {
    let (source, picture) = (S::new(case.crop), image(case.crop));
    let most = capacity(case.crop);
    let mut marks = vec![0; case.crop.words.len()];
    let mut words = vec![0; case.crop.capacity_words];
    let found = bench::find_concentric_circles(picture, &mut marks, &mut words, most as u32);
    assert_eq!(found, Some(source.sweep(most)), "candidates");
    let found = case.candidates.len();
    if found > 0 {
        let mut words = records(&case.candidates, found * RECORD_WORDS);
        let kept = bench::keep_and_rank(&mut words, found as u32);
        let theirs = source.ranking(&case.candidates)();
        assert_eq!(kept, Some(theirs), "kept candidates");
    }
    let mut fields = [0; RECORD_WORDS];
    for &(centre, radius) in &case.kept {
        bench::box_symbol(picture, &mut marks, &mut fields, centre, radius).expect(FITS);
        let outcome = source.box_symbol(centre, radius);
        assert_eq!(fields[OUTCOME], outcome, "the outcome of a box");
    }
}

/// Stops unless both unpack a case's files to the same words: the crop's own file, and the blank one that is timed.
fn unpacked_alike(case: &Case) {
    for file in [&case.crop.file(), &case.blank] {
        let mut ours = vec![!0; case.crop.words.len()];
        let mut theirs = ours.clone();
        assert_eq!(bullseye::unpack(file, &mut ours), crop::check_file(file));
        crops::unpack(file, &mut theirs);
        assert_eq!(ours, theirs, "unpacked words");
    }
}

/// The product's buffers for one crop.
struct Buffers {
    words: Vec<u64>,
    records: Vec<u32>,
    marks: Vec<u64>,
}

fn buffers(cases: &[Case]) -> Vec<Buffers> {
    let of = |case: &Case| Buffers {
        words: case.crop.words.clone(),
        records: vec![0; case.crop.capacity_words],
        marks: vec![0; case.crop.words.len()],
    };
    cases.iter().map(of).collect()
}

/// Microseconds for each crop of the set, and the ratios to each of the other runs.
fn cell(crops: usize, ours: &[f64], theirs: &[&[f64]]) -> String {
    let middle = clock::median(ours);
    let ratios: Vec<_> = (theirs.iter())
        .map(|times| format!("{:.2}", middle / clock::median(times)))
        .collect();
    format!(
        "{:.2} ({})",
        middle / crops as f64 / 1000.0,
        ratios.join(", ")
    )
}

/// The product's is what the search of a file takes above that of its words, on blank crops of the same sizes, where a
/// search is short; the other is the judge's own, as the source has none.
fn unpack(cases: &[Case], crops: usize) -> String {
    let [mut lent, mut other, mut unpacked] = [(); 3].map(|()| buffers(cases));
    other.iter_mut().for_each(|b| b.words.fill(0));
    let [file, words, theirs] = clock::alternate([
        &mut || {
            clock::time((), |()| {
                for (case, b) in cases.iter().zip(&mut lent) {
                    let (records, marks) = (&mut b.records, &mut b.marks);
                    bullseye::search_file(&case.blank, &mut b.words, records, marks, false);
                }
            })
        },
        &mut || {
            clock::time((), |()| {
                for (case, b) in cases.iter().zip(&mut other) {
                    let (width, height) = (case.crop.width, case.crop.height);
                    let (records, marks) = (&mut b.records, &mut b.marks);
                    bullseye::search_words(&b.words, width, height, records, marks, false);
                }
            })
        },
        &mut || {
            clock::time((), |()| {
                for (case, b) in cases.iter().zip(&mut unpacked) {
                    assert_eq!(crop::check_file(&case.blank), 0);
                    crops::unpack(&case.blank, &mut b.words);
                }
            })
        },
    ]);
    let ours: Vec<_> = file.iter().zip(&words).map(|(a, b)| a - b).collect();
    cell(crops, &ours, &[&theirs])
}

fn their_sweep<S: Source>(cases: &[Case]) -> impl FnMut() -> f64 {
    let images: Vec<S> = prepared(cases.iter().map(|case| case.crop));
    move || {
        clock::time((), |()| {
            for (case, image) in cases.iter().zip(&images) {
                black_box(image.sweep(capacity(case.crop)));
            }
        })
    }
}

fn sweep(cases: &[Case], crops: usize) -> String {
    let mut lent = buffers(cases);
    let mut ours = || {
        clock::time((), |()| {
            for (case, b) in cases.iter().zip(&mut lent) {
                let most = capacity(case.crop) as u32;
                let (marks, records) = (&mut b.marks, &mut b.records);
                bench::find_concentric_circles(image(case.crop), marks, records, most).expect(FITS);
            }
        })
    };
    let [ours, logged, plain] = clock::alternate([
        &mut ours,
        &mut their_sweep::<Logged>(cases),
        &mut their_sweep::<Plain>(cases),
    ]);
    cell(crops, &ours, &[&logged, &plain])
}

fn their_kept<S: Source>(cases: &[Case]) -> impl FnMut() -> f64 {
    let images: Vec<S> = prepared(cases.iter().map(|case| case.crop));
    move || {
        let rankings: Vec<_> = (images.iter().zip(cases))
            .map(|(image, case)| image.ranking(&case.candidates))
            .collect();
        clock::time(rankings, |rankings| {
            rankings.into_iter().map(|run| run()).sum::<u32>()
        })
    }
}

fn kept(cases: &[Case], crops: usize) -> String {
    let mut ours = || {
        let copies: Vec<_> = (cases.iter())
            .map(|case| records(&case.candidates, case.candidates.len() * RECORD_WORDS))
            .collect();
        clock::time(copies, |mut copies| {
            for (case, words) in cases.iter().zip(&mut copies) {
                bench::keep_and_rank(words, case.candidates.len() as u32).expect(FITS);
            }
        })
    };
    let [ours, logged, plain] = clock::alternate([
        &mut ours,
        &mut their_kept::<Logged>(cases),
        &mut their_kept::<Plain>(cases),
    ]);
    cell(crops, &ours, &[&logged, &plain])
}

fn their_turn<S: Source>(cases: &[Case]) -> impl FnMut() -> f64 {
    let images: Vec<S> = prepared(cases.iter().map(|case| case.crop));
    move || {
        clock::time((), |()| {
            for (case, image) in cases.iter().zip(&images) {
                for (centre, radius) in &case.kept {
                    black_box(image.box_symbol(*centre, *radius));
                }
            }
        })
    }
}

fn turn(cases: &[Case], crops: usize) -> String {
    let mut lent = buffers(cases);
    let mut fields = [0; RECORD_WORDS];
    let mut ours = || {
        clock::time((), |()| {
            for (case, b) in cases.iter().zip(&mut lent) {
                for (centre, radius) in &case.kept {
                    let (marks, fields) = (&mut b.marks, &mut fields);
                    bench::box_symbol(image(case.crop), marks, fields, *centre, *radius)
                        .expect(FITS);
                }
            }
        })
    };
    let [ours, logged, plain] = clock::alternate([
        &mut ours,
        &mut their_turn::<Logged>(cases),
        &mut their_turn::<Plain>(cases),
    ]);
    cell(crops, &ours, &[&logged, &plain])
}

/// A phase's cell, unless no crop comes to it.
fn cell_of(phase: fn(&[Case], usize) -> String, cases: &[Case], crops: usize) -> String {
    match cases.is_empty() {
        true => "none".to_string(),
        false => phase(cases, crops),
    }
}

/// One line of the table; a phase is timed on the crops that come to it.
fn line(set: &Set) -> String {
    let crops = set.crops.len();
    let mut cases: Vec<_> = set.crops.iter().map(Case::of).collect();
    for case in &cases {
        whole::agreed(case.crop, false);
        agreed::<Logged>(case);
        agreed::<Plain>(case);
        unpacked_alike(case);
    }
    let (unpack, sweep) = (unpack(&cases, crops), sweep(&cases, crops));
    cases.retain(|case| !case.candidates.is_empty());
    let kept = cell_of(kept, &cases, crops);
    cases.retain(|case| !case.kept.is_empty());
    let turn = cell_of(turn, &cases, crops);
    format!("| {} | {unpack} | {sweep} | {kept} | {turn} |", set.name)
}

pub fn print(sets: &[Set]) {
    table::print(HEADER, sets, line);
}
