//! Holds each proved step against the source's on generated inputs: every result word and every mark.
//!
//! usage: compare [--seed S] [--count N]
//!
//! The first difference ends the run, with the seed that made it. The counts at the end tell what was compared.

use std::collections::BTreeMap;
use std::fmt::Debug;

use crops::places::{CLASS, COLUMN_RUNS, CORNERS, OUTCOME, ROW_RUNS, VARIANCE};
use oracle::generate::{self, Crop, Random};
use oracle::harness::class;
use oracle::harness::steps::{self, Boxed, Candidate, Image};
use oracle::{MOST_CANDIDATES, RECORD_WORDS, options};

/// Inputs of each step that reads no image, for each crop.
const PURE_INPUTS: u32 = 4;

const SCALES: [f64; 8] = [0.0625, 0.065, 0.066, 0.069, 0.07, 0.075, 0.08, 0.0799999];

/// How often each step came to each outcome.
#[derive(Default)]
struct Tally(BTreeMap<(&'static str, String), u64>);

impl Tally {
    fn add(&mut self, step: &'static str, outcome: impl ToString) {
        *self.0.entry((step, outcome.to_string())).or_default() += 1;
    }

    fn print(&self) {
        let mut steps: BTreeMap<_, (u64, String)> = BTreeMap::new();
        for ((step, outcome), count) in &self.0 {
            let entry = steps.entry(step).or_default();
            entry.0 += count;
            entry.1 += &format!(", {outcome} {count}");
        }
        for (step, (count, outcomes)) in steps {
            println!("{step}: {count} compared{outcomes}");
        }
    }
}

/// A crop's seed, the numbers drawn for it, and the counts of the run.
struct Round<'a> {
    seed: u64,
    random: Random,
    tally: &'a mut Tally,
}

impl Round<'_> {
    /// Stops the run at a difference.
    fn same<T: PartialEq + Debug>(&self, step: &str, input: impl Debug, ours: T, source: T) {
        if ours != source {
            println!("{step}, seed {}, input {input:?}", self.seed);
            println!("ours   {ours:?}\nsource {source:?}");
            std::process::exit(1);
        }
    }

    /// A number between two, often one of the ends.
    fn between(&mut self, low: u32, high: u32) -> u32 {
        match self.random.below(8) {
            0 => low,
            1 => high,
            2 => high - (high - low).min(1),
            _ => low + (self.random.next() % (u64::from(high - low) + 1)) as u32,
        }
    }

    /// Any u32, often an end or near a power of two.
    fn any(&mut self) -> u32 {
        match self.random.below(4) {
            0 => self.between(0, u32::MAX),
            1 => (1 << self.random.below(32)) - self.random.below(2),
            _ => self.between(0, 4096),
        }
    }

    /// The bits of any f32: often a zero, an infinity, a NaN or a coordinate.
    fn float(&mut self) -> u32 {
        match self.random.below(8) {
            0 => self
                .random
                .pick(&[0, 1 << 31, 0x7f80_0000, 0xff80_0000, 0x7fc0_0000, 1]),
            1 | 2 => self.random.next() as u32,
            3 => (self.random.below(5000) as f32).to_bits(),
            _ => (self.random.real(-100.0, 2100.0) as f32).to_bits(),
        }
    }

    /// Any f64, often near a percentage.
    fn percent(&mut self) -> f64 {
        match self.random.below(8) {
            0 => self.random.pick(&[
                0.0,
                -0.0,
                1.0,
                f64::INFINITY,
                f64::NAN,
                -1.0,
                f64::MIN_POSITIVE,
            ]),
            1 => f64::from_bits(self.random.next()),
            _ => self.random.real(0.0, 1.25),
        }
    }

    fn scale(&mut self) -> f64 {
        match self.random.below(2) {
            0 => self.random.pick(&SCALES),
            _ => self.random.real(0.0625, 0.08),
        }
    }

    fn runs(&mut self) -> [u32; 11] {
        let most = self.random.pick(&[0, 2, 4, 12, 300, 65535]);
        [0; 11].map(|_| self.between(0, most))
    }

    /// Words for a buffer before a call, so that one that must stay as it was is told from a zero.
    fn words<T>(&mut self, length: usize, cut: impl Fn(u64) -> T) -> Vec<T> {
        (0..length).map(|_| cut(self.random.next())).collect()
    }
}

fn image(crop: &Crop) -> Image<'_> {
    Image {
        words: &crop.words,
        width: crop.width,
        height: crop.height,
    }
}

/// The bits of a float, all NaNs being one.
fn bits(x: f32) -> u32 {
    if x.is_nan() { 0x7fc0_0000 } else { x.to_bits() }
}

fn pair<T>((x, y): (T, T)) -> [T; 2] {
    [x, y]
}

fn record_of(candidate: &Candidate) -> [u32; RECORD_WORDS] {
    let mut record = [0; RECORD_WORDS];
    record[..ROW_RUNS].copy_from_slice(&[candidate.centre.0, candidate.centre.1, candidate.radius]);
    record[ROW_RUNS..COLUMN_RUNS].copy_from_slice(&candidate.row_runs);
    record[COLUMN_RUNS..VARIANCE].copy_from_slice(&candidate.column_runs);
    record
}

// ---- steps that read an image

impl Round<'_> {
    /// Compares a reading step: its result, and the marks that it leaves where others were before.
    fn reading<T: PartialEq + Debug>(
        &mut self,
        step: &str,
        crop: &Crop,
        input: impl Debug,
        ours: impl FnOnce(&mut [u64]) -> T,
        (source, set): (T, Vec<u64>),
    ) {
        let before = self.words(crop.words.len(), |n| n & n >> 7);
        let mut marks = before.clone();
        let result = ours(&mut marks);
        let input = (crop.family, crop.width, crop.height, input);
        self.same(step, &input, result, source);
        let expected: Vec<_> = before.iter().zip(set).map(|(a, b)| a | b).collect();
        let places = (0..marks.len()).filter(|&i| marks[i] != expected[i]);
        self.same(
            &format!("{step}: words of marks that differ"),
            &input,
            places.collect(),
            Vec::new(),
        );
    }

    /// The sweep of a crop; the candidates if they are within the capacity.
    fn sweep(&mut self, crop: &Crop) -> Vec<Candidate> {
        let capacity = (crop.capacity_words / RECORD_WORDS).min(MOST_CANDIDATES);
        let mut records = self.words(crop.capacity_words, |n| n as u32);
        let mut expected = records.clone();
        let (mut candidates, set) = steps::sweep(image(crop), capacity);
        for (candidate, record) in
            (candidates.iter().take(capacity)).zip(expected.chunks_mut(RECORD_WORDS))
        {
            record.copy_from_slice(&record_of(candidate));
        }
        let found = candidates.len();
        let step = "find_concentric_circles";
        let ours = |marks: &mut [u64]| {
            bench::find_concentric_circles(image(crop), marks, &mut records, capacity as u32)
        };
        self.reading(step, crop, capacity, ours, (Some(found as u32), set));
        self.same(step, (crop.family, "records"), records, expected);
        self.tally.add(
            step,
            match found {
                0 => "found 0",
                n if n > capacity => "found capacity + 1",
                1 => "found 1",
                _ => "found more",
            },
        );
        candidates.truncate(if found > capacity { 0 } else { found });
        candidates
    }

    /// A call whose buffers do not fit, or whose centre lies outside, is refused, and changes nothing.
    fn refused(&mut self, crop: &Crop) {
        let mut marks = self.words(crop.words.len() - 1, |n| n);
        let mut records = self.words(crop.capacity_words, |n| n as u32);
        let before = (marks.clone(), records.clone());
        let found = bench::find_concentric_circles(image(crop), &mut marks, &mut records, 0);
        self.same("find_concentric_circles, marks too short", (), found, None);
        let mut fields = [7; RECORD_WORDS];
        let boxed = bench::box_symbol(image(crop), &mut marks, &mut fields, (0, 0), 6);
        self.same("box_symbol, marks too short", (), boxed, None);
        self.same("box_symbol, record", (), fields, [7; RECORD_WORDS]);
        let mut whole = vec![7; crop.words.len()];
        let right = bench::corrected_center(image(crop), &mut whole, (crop.width, 0));
        self.same("corrected_center, right of the image", (), right, None);
        let below = bench::corrected_center(image(crop), &mut whole, (0, crop.height));
        self.same("corrected_center, below the image", (), below, None);
        self.same("marks of these", (), whole, vec![7; crop.words.len()]);
        let many = bench::keep_and_rank(&mut records, 1025);
        self.same("keep_and_rank, 1,025 candidates", (), many, None);
        self.same("buffers after a refusal", (), (marks, records), before);
        self.tally.add("refused calls", "unchanged");
    }

    /// A pixel of the image, often in its first or last column or row.
    fn pixel(&mut self, crop: &Crop) -> (u32, u32) {
        (
            self.between(0, crop.width - 1),
            self.between(0, crop.height - 1),
        )
    }

    /// Coordinates below 2^31: from there on the source's cast to i32 makes them negative.
    fn area(&mut self, crop: &Crop) {
        let (x, y) = match self.random.below(4) {
            0 => (
                self.between(0, crop.width + 2),
                self.between(0, crop.height + 2),
            ),
            1 => (self.any() >> 1, self.any() >> 1),
            _ => self.pixel(crop),
        };
        let (seen, set) = steps::area(image(crop), x, y);
        let number = seen.map_or(2, u32::from);
        let ours = |marks: &mut [u64]| bench::try_get_area(image(crop), marks, (x, y));
        self.reading("try_get_area", crop, (x, y), ours, (Some(number), set));
        self.tally.add(
            "try_get_area",
            ["white", "black", "outside"][number as usize],
        );
    }

    fn walks(&mut self, crop: &Crop) {
        let centre = self.pixel(crop);
        let degree = match self.random.below(4) {
            0 => self.random.pick(&[0, 7, 90, 97, 180, 270]),
            _ => self.between(0, 359),
        };
        let ((length, ends), set) = steps::width_at_degree(image(crop), centre, degree);
        let [left, right] = ends.map(|end| (bits(end.0), bits(end.1)));
        let expected = [length, left.0, left.1, right.0, right.1];
        let ours =
            |marks: &mut [u64]| bench::find_width_at_degree(image(crop), marks, centre, degree);
        self.reading(
            "find_width_at_degree",
            crop,
            (centre, degree),
            ours,
            (Some(expected), set),
        );
        self.tally.add(
            "find_width_at_degree",
            if left == (bits(centre.0 as f32), bits(centre.1 as f32)) {
                "left end at the centre"
            } else {
                "left end further"
            },
        );
        let (corrected, set) = steps::corrected_centre(image(crop), centre);
        let ours = |marks: &mut [u64]| bench::corrected_center(image(crop), marks, centre);
        self.reading(
            "corrected_center",
            crop,
            centre,
            ours,
            (Some(pair(corrected)), set),
        );
        let inside = corrected.0 < crop.width && corrected.1 < crop.height;
        self.tally.add(
            "corrected_center",
            match (corrected, inside) {
                ((0, 0), _) => "(0, 0)",
                (_, true) => "inside",
                (_, false) => "outside",
            },
        );
    }

    fn boxed(&mut self, crop: &Crop, centre: (u32, u32), radius: u32, step: &'static str) {
        let (
            Boxed {
                outcome,
                scale,
                rotation,
                centre: last,
                corners,
            },
            set,
        ) = steps::box_symbol(image(crop), centre, radius);
        let mut fields = [0; RECORD_WORDS].map(|_: u32| self.random.next() as u32);
        let mut expected = fields;
        let scale = if outcome == 0 { 0 } else { scale };
        expected[OUTCOME..CORNERS].copy_from_slice(&[
            outcome,
            scale,
            rotation.to_bits(),
            last.0,
            last.1,
        ]);
        let words = corners
            .iter()
            .flat_map(|corner| [bits(corner.0), bits(corner.1)]);
        for (word, value) in expected[CORNERS..CLASS].iter_mut().zip(words) {
            *word = value;
        }
        expected[CLASS] = class(outcome, rotation);
        let ours = |marks: &mut [u64]| {
            bench::box_symbol(image(crop), marks, &mut fields, centre, radius).map(|_| fields)
        };
        self.reading(step, crop, (centre, radius), ours, (Some(expected), set));
        self.tally.add(
            step,
            match outcome {
                0 => "no turn".to_string(),
                1 => format!("turned at scale {scale}, class {}", expected[CLASS]),
                _ => format!("lost at scale {scale}"),
            },
        );
    }
}

// ---- steps that keep and rank

impl Round<'_> {
    /// Random candidates, about one place or anywhere, often with equal runs.
    fn candidates(&mut self) -> Vec<Candidate> {
        let count = match self.random.below(64) {
            0 => self.between(100, 1024),
            1..=15 => self.between(10, 60),
            _ => self.between(1, 9),
        };
        let spread = self.random.pick(&[0, 1, 3, 20, 2047, 65535]);
        let least = self.between(0, 65535 - spread);
        let kinds: Vec<_> = (0..self.random.pick(&[1, 2, 5, 400]))
            .map(|_| (self.runs(), self.runs()))
            .collect();
        let one = |radius| {
            let (row_runs, column_runs) = self.random.pick(&kinds);
            Candidate {
                centre: (
                    least + self.between(0, spread),
                    least + self.between(0, spread),
                ),
                radius,
                row_runs,
                column_runs,
            }
        };
        (0..count).map(one).collect()
    }

    /// What a list of candidates comes to, in a buffer with words beyond them.
    fn ranked(&mut self, candidates: &[Candidate], step: &'static str) {
        let found = candidates.len();
        let mut words = self.words((found + 2) * RECORD_WORDS + 3, |n| n as u32 % 65536);
        for (candidate, record) in candidates.iter().zip(words.chunks_mut(RECORD_WORDS)) {
            record[..25].copy_from_slice(&record_of(candidate)[..25]);
        }
        let source = steps::kept_and_ranked(candidates);
        let capacity = (words.len() / RECORD_WORDS).min(MOST_CANDIDATES);
        let mut expected = words.clone();
        expected[..capacity * RECORD_WORDS].fill(0);
        for ((index, variance), record) in source.iter().zip(expected.chunks_mut(RECORD_WORDS)) {
            let at = *index as usize * RECORD_WORDS;
            record.copy_from_slice(&words[at..at + RECORD_WORDS]);
            record[25] = bits(*variance);
        }
        if found > 0 {
            let centres: Vec<_> = candidates
                .iter()
                .map(|candidate| candidate.centre)
                .collect();
            let (deviation, mean) = steps::deviation(&centres);
            let ours = bench::calculate_center_point_std_dev(&words, found as u32);
            let both = [deviation.0, deviation.1, mean.0, mean.1];
            self.same("calculate_center_point_std_dev", &centres, ours, Some(both));
            self.tally.add(
                "calculate_center_point_std_dev",
                if deviation == (0, 0) {
                    "deviation 0"
                } else {
                    "more"
                },
            );
        }
        let kept = bench::keep_and_rank(&mut words, found as u32);
        self.same(step, candidates, kept, Some(source.len() as u32));
        self.same(step, candidates, words, expected);
        let equal = source.windows(2).any(|two| two[0].1 == two[1].1);
        self.tally.add(
            step,
            match (source.len(), equal) {
                (0, _) => "kept 0",
                (n, false) if n == found => "kept all",
                (_, false) => "kept some",
                (_, true) => "kept some of equal variance",
            },
        );
    }
}

// ---- steps of numbers

impl Round<'_> {
    fn size(&mut self) {
        let radius = self.between(0, 65535);
        let (adjust, area, last) = (self.percent(), self.percent(), self.percent());
        let ours = bench::guess_barcode_size_general(radius, adjust, area, last);
        let source = steps::symbol_size(radius, adjust, area, last);
        self.same(
            "guess_barcode_size_general",
            (radius, adjust, area, last),
            ours,
            Some(pair(source)),
        );
        self.tally.add(
            "guess_barcode_size_general",
            match source.0 {
                0 => "width 0",
                u32::MAX => "width u32::MAX",
                _ => "between",
            },
        );
    }

    /// Width and height of an image that is not refused.
    fn sides(&mut self) -> (u32, u32) {
        let width = self.between(crops::LEAST_SIDE, crops::GREATEST_SIDE);
        let most = crops::MOST_WORDS / crops::row_words(width);
        let most = (most as u32).min(crops::GREATEST_SIDE);
        (width, self.between(crops::LEAST_SIDE, most))
    }

    fn boundary(&mut self) {
        let (width, height) = self.sides();
        let centre = (self.between(0, width - 1), self.between(0, height - 1));
        let scale = self.scale();
        let small = self.random.pick(&[60, 2047]);
        let radius = self.between(0, small);
        let input = (centre, radius, (width, height), scale);
        let ours = bench::scaled_boundary(centre, radius, (width, height), scale);
        let (left, right, top, bottom) =
            steps::simple_boundary(centre, radius, (width, height), Some(scale));
        let expected = [left, right, top, bottom];
        self.same("scaled_boundary", input, ours, Some(expected));
        let clamped = left == 0 || right == width || top == height || bottom == 0;
        self.tally.add(
            "scaled_boundary",
            if clamped { "clamped" } else { "inside" },
        );
        let (radius, scale, cell) = (
            radius.max(6),
            self.scale(),
            (self.between(0, 29), self.between(0, 32)),
        );
        let ours = bench::adjust_point_alternate(centre, radius, (width, height), scale, cell);
        let source = steps::adjusted_point(centre, radius, (width, height), scale, cell);
        let input = (centre, radius, (width, height), scale, cell);
        self.same("adjust_point_alternate", input, ours, Some(pair(source)));
        let capped = source.1 + 1 == {
            let (_, _, top, bottom) =
                steps::simple_boundary(centre, radius, (width, height), Some(scale));
            top - bottom
        };
        self.tally.add(
            "adjust_point_alternate",
            if capped { "row capped" } else { "row free" },
        );
    }

    fn turned(&mut self) {
        let (centre, original) = ((self.any(), self.any()), (self.any(), self.any()));
        let degree = match self.random.below(2) {
            0 => self.between(0, 1 << 24),
            _ => self.between(0, 720),
        };
        let (x, y) = steps::get_point(centre, original, degree);
        let ours = bench::get_point(centre, original, degree);
        self.same(
            "get_point",
            (centre, original, degree),
            ours,
            [bits(x), bits(y)],
        );
        self.tally.add(
            "get_point",
            if degree < 360 {
                "below 360"
            } else {
                "360 and more"
            },
        );
    }

    fn centre(&mut self) {
        let points = [0; 3].map(|_| (self.float(), self.float()));
        let (x, y) =
            steps::find_center(points.map(|(x, y)| (f32::from_bits(x), f32::from_bits(y))));
        let ours = bench::find_center(points);
        self.same("find_center", points, ours, [bits(x), bits(y)]);
        self.tally.add(
            "find_center",
            match (x.is_nan(), x.is_infinite()) {
                (true, _) => "NaN",
                (_, true) => "infinite",
                _ => "finite",
            },
        );
    }
}

/// Every step, on a crop and on numbers of its seed.
fn round(seed: u64, tally: &mut Tally) {
    let random = Random::new(!seed);
    let mut round = Round {
        seed,
        random,
        tally,
    };
    let crop = generate::crop(seed);
    let candidates = round.sweep(&crop);
    round.ranked(&candidates, "keep_and_rank, swept");
    for (index, _) in steps::kept_and_ranked(&candidates).into_iter().take(3) {
        let Candidate { centre, radius, .. } = candidates[index as usize];
        round.boxed(&crop, centre, radius, "box_symbol, kept");
    }
    let most = round.random.pick(&[100, 100, 2047]);
    let (centre, radius) = (round.pixel(&crop), round.between(6, most));
    round.boxed(&crop, centre, radius, "box_symbol, anywhere");
    round.walks(&crop);
    round.refused(&crop);
    round.area(&crop);
    let candidates = round.candidates();
    round.ranked(&candidates, "keep_and_rank, random");
    for _ in 0..PURE_INPUTS {
        round.size();
        round.boundary();
        round.turned();
        round.centre();
    }
}

fn main() {
    let [seed, count] = options::numbers(["--seed", "--count"]);
    let (seed, count) = (seed.unwrap_or(1), count.unwrap_or(10_000));
    let mut tally = Tally::default();
    for at in seed..seed + count {
        round(at, &mut tally);
    }
    println!("seeds {seed} to {}: no difference", seed + count - 1);
    tally.print();
}
