//! Chooses the stored vectors: for each row of the coverage table the smallest crop that hits it, some of every family,
//! damaged files for each refusal, and the crops of a folder (Zint's symbols); then, with the ellipse check, the smallest crops for
//! all that it can say, and refusals.
//!
//! With `--again` OUT's own crops are answered anew, and those are added that a changed rule brings among the chosen.
//!
//! usage: vectors OUT [--seeds N] [--again | FOLDER]

#[cfg(not(source))]
fn main() {
    eprintln!("vectors: the source's text is not here, so nothing can say what is expected");
    std::process::exit(1);
}

#[cfg(source)]
fn main() {
    let mut seeds = 40_000;
    let mut again = false;
    let mut paths = Vec::new();
    let mut arguments = std::env::args().skip(1);
    while let Some(word) = arguments.next() {
        match word.as_str() {
            "--seeds" => {
                seeds = arguments
                    .next()
                    .and_then(|n| n.parse().ok())
                    .expect("a number")
            }
            "--again" => again = true,
            _ => paths.push(word),
        }
    }
    let Some(out) = paths.first() else {
        eprintln!("usage: vectors OUT [--seeds N] [--again | FOLDER]");
        std::process::exit(2);
    };
    let chosen = match again {
        true => choose::again(&std::fs::read(out).expect("the pack"), seeds),
        false => choose::all(seeds, paths.get(1).map(std::path::Path::new)),
    };
    std::fs::write(out, oracle::vectors::write(&chosen)).expect("the pack is written");
    print!("{}", choose::coverage(&chosen).table());
    println!("{} vectors", chosen.len());
}

#[cfg(source)]
mod choose {
    use std::collections::{BTreeMap, BTreeSet};
    use std::path::Path;

    use crops::places::{CLASS, OUTCOME, ROTATION, SCALE};
    use crops::{RECORD_WORDS, words_of};
    use oracle::generate::{self, Coverage, Crop};
    use oracle::harness::{self, search_file};
    use oracle::second::{EllipseVerdict, EllipseWidths};
    use oracle::vectors::Vector;

    /// How many crops of a family are kept beside the smallest for each row, and how many files for each refusal.
    const OF_A_FAMILY: usize = 16;
    const OF_A_REFUSAL: usize = 8;

    /// How many of the smallest crops are kept for each row with the ellipse check.
    const OF_A_CHECK: usize = 2;

    /// What gives the crops that are searched with the ellipse check.
    const CHECKED: [fn(u64) -> Crop; 2] = [generate::ellipse, generate::crop];

    /// Files of this many bytes or more are taken with the ellipse check only for rows that small ones do not have.
    const LARGE: usize = 5_000;

    /// A folder's crops of this many bytes or more are left out, to keep the pack small.
    const TOO_LONG: usize = 12_000;

    pub fn all(seeds: u64, folder: Option<&Path>) -> Vec<Vector> {
        let mut chosen = sample();
        chosen.extend(near_pairs());
        chosen.extend(header_alone());
        chosen.extend(smallest(seeds));
        chosen.extend(refused());
        chosen.extend(lengths_refused());
        chosen.extend(folder.map(stored_crops).unwrap_or_default());
        chosen.extend(with_check(seeds));
        chosen
    }

    /// The stored vectors answered anew, with a count of what changed, and those of the generator that are not among them.
    pub fn again(pack: &[u8], seeds: u64) -> Vec<Vector> {
        let stored = oracle::vectors::read(pack);
        let anew = |v: &Vector| {
            let lengths = [v.words_len, v.records_len, v.marks_len];
            Vector::made(&v.name, &v.file, lengths, v.ellipse, search_file)
        };
        let mut chosen: Vec<Vector> = stored.iter().map(anew).collect();
        let pairs = || stored.iter().zip(&chosen);
        let mut changes = BTreeMap::new();
        for change in pairs().flat_map(|(old, new)| old.changes(new)) {
            *changes.entry(change).or_insert(0) += 1;
        }
        println!("Change, of a vector or of one of its records | Count\n---|---");
        for (change, count) in changes {
            println!("{change} | {count}");
        }
        println!(
            "vectors changed | {}",
            pairs().filter(|(old, new)| old != new).count()
        );
        let known = |v: &Vector| stored.iter().any(|old| old.name == v.name);
        let added: Vec<Vector> = (smallest(seeds).into_iter().chain(with_check(seeds)))
            .filter(|v| !known(v))
            .collect();
        println!("added | {}\n", added.len());
        chosen.extend(added);
        chosen
    }

    pub fn coverage(vectors: &[Vector]) -> Coverage {
        let mut coverage = Coverage::default();
        for v in vectors {
            coverage.add(v.report.answer, v.report.found, v.report.kept, &v.records);
            for widths in v.ellipse_widths() {
                coverage.add_verdict(&widths);
            }
        }
        coverage
    }

    /// A vector without the ellipse check.
    fn plain(name: &str, file: &[u8], lengths: [usize; 3]) -> Vector {
        Vector::made(name, file, lengths, false, search_file)
    }

    /// The manual's sample, the smallest crop, all white.
    fn sample() -> Vec<Vector> {
        let mut file = vec![0x10, 0x21, 0x02, 0x10];
        file.resize(169, 0);
        vec![plain("sample", &file, [33, 16_000, 33])]
    }

    /// A crop whose black pixels are those where `black` holds.
    fn painted(width: u32, height: u32, black: impl Fn(u32, u32) -> bool) -> Crop {
        let row_words = width.div_ceil(64);
        let mut words = vec![0; (row_words * height) as usize];
        for (y, x) in (0..height).flat_map(|y| (0..width).map(move |x| (y, x))) {
            words[(y * row_words + x / 64) as usize] |= u64::from(black(x, y)) << (x % 64);
        }
        Crop {
            family: "painted",
            width,
            height,
            words,
            capacity_words: 16_000,
        }
    }

    /// A single-pixel eye about (cx, cy): a cross of eleven runs in the row and in the column.
    fn eye(x: u32, y: u32, cx: u32, cy: u32) -> bool {
        let along = |a: u32, b: u32| a.abs_diff(b) <= 5 && a.abs_diff(b) % 2 == 1;
        (y == cy && along(x, cx)) || (x == cx && along(y, cy))
    }

    /// The rules' examples that are images, the four eyes that are all set aside, and more than 1,024 candidates.
    fn near_pairs() -> Vec<Vector> {
        let row = |from: u32| {
            painted(33, 33, move |x, y| {
                y == 6 && (from..from + 11).contains(&x) && (x - from) % 2 == 0
            })
        };
        let eyes = [(12, 24), (36, 24), (24, 12), (24, 36)];
        let four = painted(49, 49, |x, y| {
            eyes.iter().any(|&(cx, cy)| eye(x, y, cx, cy))
        });
        let border = painted(49, 49, |x, y| eye(x, y, 36, 24));
        let board = painted(200, 220, |x, y| (x + y) % 2 == 0);
        vec![
            made("runs from 15", &row(15), 16_000),
            made("runs from 16", &row(16), 16_000),
            made("four eyes", &four, 16_000),
            made("four eyes, room for 4", &four, 160),
            made("four eyes, room for 3", &four, 159),
            made("eye at the right border", &border, 16_000),
            made("board, 1,024 records", &board, 40_960),
            made("board, 2,000 records", &board, 80_000),
        ]
    }

    /// Headers at the edges of numbers 2 and 3, with no rows: number 4 where the dimensions pass.
    fn header_alone() -> Vec<Vector> {
        let sides = [
            (33, 33),
            (32, 33),
            (33, 32),
            (2048, 33),
            (2049, 33),
            (33, 2048),
            (33, 2049),
            (512, 1000),
            (576, 889),
        ];
        let vector = |&(w, h): &(u32, u32)| {
            let file = (1 << 28 | w << 16 | h << 4 as u32).to_be_bytes();
            plain(&format!("header {w} {h}"), &file, [1, 40, 1])
        };
        sides.iter().map(vector).collect()
    }

    fn made(name: &str, crop: &Crop, records_len: usize) -> Vector {
        let n = crop.words.len();
        plain(name, &crop.file(), [n, records_len, n])
    }

    /// The rows of the coverage table that a vector hits, and its family with its answer.
    fn rows(crop: &Crop, v: &Vector) -> Vec<String> {
        let answer = v.report.answer;
        let mut rows = vec![format!("{} {answer}", crop.family)];
        rows.push(format!(
            "answer {answer} found {}",
            (v.report.found > 0) as u32
        ));
        for record in v.records.chunks_exact(RECORD_WORDS) {
            rows.push(format!(
                "outcome {} scale {}",
                record[OUTCOME], record[SCALE]
            ));
            rows.push(format!(
                "outcome {} class {}",
                record[OUTCOME], record[CLASS]
            ));
            rows.push(format!(
                "outcome {} degree {}",
                record[OUTCOME],
                f32::from_bits(record[ROTATION])
            ));
        }
        rows
    }

    /// The smallest crop for each row, and the first few of each family.
    fn smallest(seeds: u64) -> Vec<Vector> {
        let mut best: BTreeMap<String, (usize, u64)> = BTreeMap::new();
        let mut taken: BTreeMap<u64, Vector> = BTreeMap::new();
        let mut of_family: BTreeMap<&str, usize> = BTreeMap::new();
        for seed in 0..seeds {
            let crop = generate::crop(seed);
            let v = made(
                &format!("{} {seed}", crop.family),
                &crop,
                crop.capacity_words,
            );
            let size = v.file.len() + 4 * v.records.len();
            for row in rows(&crop, &v) {
                let entry = best.entry(row).or_insert((usize::MAX, 0));
                *entry = (*entry).min((size, seed));
            }
            let count = of_family.entry(crop.family).or_insert(0);
            if *count < OF_A_FAMILY && size < 3_000 {
                *count += 1;
                taken.insert(seed, v);
            }
        }
        for &(_, seed) in best.values() {
            taken.entry(seed).or_insert_with(|| {
                let crop = generate::crop(seed);
                made(
                    &format!("{} {seed}", crop.family),
                    &crop,
                    crop.capacity_words,
                )
            });
        }
        taken.into_values().collect()
    }

    /// Small files for each of the numbers 1 to 5, in buffers that would fit them.
    fn refused() -> Vec<Vector> {
        let mut of_number = [0; 6];
        let mut chosen = Vec::new();
        for seed in 0..20_000 {
            let file = generate::bad_file(seed);
            let number = harness::check(&file) as usize;
            if number > 0 && of_number[number] < OF_A_REFUSAL && file.len() < 3_000 {
                of_number[number] += 1;
                let size = words_of(&file).min(100);
                let name = format!("refused {number} {seed}");
                chosen.push(plain(&name, &file, [size, 80, size]));
            }
        }
        chosen
    }

    /// Number 6 for each buffer, and what comes before it.
    fn lengths_refused() -> Vec<Vector> {
        let crop = generate::family("noise", 1);
        let n = crop.words.len();
        let lengths = [
            [n - 1, 40, n],
            [n + 1, 40, n],
            [n, 39, n],
            [n, 40, n - 1],
            [n, 40, n + 1],
            [n, 0, 0],
            [0, 40, n],
        ];
        let mut chosen = Vec::new();
        for (i, lengths) in lengths.into_iter().enumerate() {
            chosen.push(plain(&format!("lengths {i}"), &crop.file(), lengths));
        }
        let mut short = crop.file();
        short.pop();
        chosen.push(plain("lengths and short file", &short, [n - 1, 39, n]));
        chosen
    }

    /// The small crops of a folder, by name.
    fn stored_crops(folder: &Path) -> Vec<Vector> {
        let entries = std::fs::read_dir(folder).expect("the folder of crops");
        let mut paths: Vec<_> = entries.map(|e| e.expect("an entry").path()).collect();
        paths.sort();
        let vector = |path: &std::path::PathBuf| {
            let file = std::fs::read(path).expect("a crop");
            let stem = path.file_stem().expect("a name").to_string_lossy();
            let n = words_of(&file);
            (file.len() < TOO_LONG).then(|| plain(&stem, &file, [n, 16_000, n]))
        };
        paths.iter().filter_map(vector).collect()
    }
    /// Vectors with the ellipse check: what is refused, the rules' examples, and the smallest crops for all that it can say, those
    /// with an ellipse without it too.
    fn with_check(seeds: u64) -> Vec<Vector> {
        let mut refusals = BTreeMap::new();
        for v in refused() {
            refusals.entry(v.report.answer).or_insert(v);
        }
        let others = sample().into_iter().chain(near_pairs());
        let mut chosen: Vec<Vector> = (others.chain(refusals.into_values()))
            .chain(lengths_refused())
            .map(|v| checked(&v.name, &v.file, [v.words_len, v.records_len, v.marks_len]))
            .collect();
        let near = generate::near_ellipses().into_iter();
        let near = near.map(|(name, crop)| (name.to_string(), crop));
        let smallest = smallest_checked(seeds).into_iter().map(|(maker, seed)| {
            let crop = CHECKED[maker](seed);
            (format!("{} {seed}", crop.family), crop)
        });
        for (name, crop) in near.chain(smallest) {
            let (file, n) = (crop.file(), crop.words.len());
            let lengths = [n, crop.capacity_words, n];
            let v = checked(&name, &file, lengths);
            let mut records = v.records.chunks_exact(RECORD_WORDS);
            let ellipse = records.any(|record| record[OUTCOME] == 3);
            chosen.push(v);
            if ellipse {
                chosen.push(plain(&format!("{name} off"), &file, lengths));
            }
        }
        chosen
    }

    /// A vector with the ellipse check, which its name says.
    fn checked(name: &str, file: &[u8], lengths: [usize; 3]) -> Vector {
        Vector::made(&format!("{name} on"), file, lengths, true, search_file)
    }

    /// The smallest crops for each row with the ellipse check, each as its maker's place and its seed.
    fn smallest_checked(seeds: u64) -> BTreeSet<(usize, u64)> {
        let mut best: BTreeMap<String, BTreeSet<(usize, usize, u64)>> = BTreeMap::new();
        for (maker, seed) in (0..CHECKED.len()).flat_map(|k| (0..seeds).map(move |seed| (k, seed)))
        {
            let crop = CHECKED[maker](seed);
            let n = crop.words.len();
            let v = checked(crop.family, &crop.file(), [n, crop.capacity_words, n]);
            let size = v.file.len() + 4 * v.records.len();
            for row in checked_rows(&crop, &v) {
                let entry = best.entry(row).or_default();
                entry.insert((size, maker, seed));
                if entry.len() > OF_A_CHECK {
                    entry.pop_last();
                }
            }
        }
        let places = best.into_values().flatten();
        places.map(|(_, maker, seed)| (maker, seed)).collect()
    }

    /// What is told of a search with the ellipse check: its family with each verdict, what is at a limit, and ellipses beside other
    /// records.
    fn checked_rows(crop: &Crop, v: &Vector) -> Vec<String> {
        let records = v.records.chunks_exact(RECORD_WORDS);
        let outcomes: Vec<u32> = records.map(|record| record[OUTCOME]).collect();
        let mut rows = Vec::new();
        for (widths, outcome) in v.ellipse_widths().iter().zip(&outcomes) {
            if v.file.len() < LARGE {
                let verdict = widths.verdict();
                rows.push(format!("{} {verdict:?} outcome {outcome}", crop.family));
            }
            rows.extend(limit_row(widths));
        }
        let ellipses = outcomes.iter().filter(|outcome| **outcome == 3).count();
        if ellipses > 0 {
            rows.extend(rows_without(crop, v));
        }
        if ellipses > 0 && outcomes.len() > 1 {
            let (first, all) = (outcomes[0] == 3, ellipses == outcomes.len());
            rows.push(format!("several, first {first}, all {all}"));
        }
        rows
    }

    /// What about the widths of one record is at a limit: halves that are equal, end points about four fifths, the least half, lengths.
    fn limit_row(widths: &EllipseWidths) -> Option<String> {
        let EllipseWidths {
            longest,
            shortest,
            good,
        } = *widths;
        match widths.verdict() {
            EllipseVerdict::EqualHalves if good >= 116 => Some("all but halves".to_string()),
            EllipseVerdict::EqualHalves => Some(format!("halves of {}", longest - shortest)),
            _ if (110..=122).contains(&good) => Some(format!("{good} points")),
            verdict if shortest < 2 => Some(format!("{verdict:?} with half 0")),
            verdict if longest > 1_900 => Some(format!("{verdict:?} of a long one")),
            _ => None,
        }
    }

    /// What outcomes the ellipses of a vector have without the check, and whether another class than 0.
    fn rows_without(crop: &Crop, v: &Vector) -> Vec<String> {
        let plain = made(&v.name, crop, v.records_len);
        let records = v.records.chunks_exact(RECORD_WORDS);
        (records.zip(plain.records.chunks_exact(RECORD_WORDS)))
            .filter(|(record, _)| record[OUTCOME] == 3)
            .map(|(_, plain)| format!("{} {} without", plain[OUTCOME], plain[CLASS] > 0))
            .collect()
    }
}
