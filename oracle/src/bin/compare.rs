//! Holds the Rust's own code and the second reading of the rules against each other on generated crops, with the ellipse check and
//! without.
//!
//! usage: compare [--seed S] [--count N]

#[cfg(not(source))]
fn main() {
    eprintln!("compare: the source's text is not here, so there is nothing to compare with");
    std::process::exit(1);
}

#[cfg(source)]
fn main() {
    let [seed, count] = oracle::options::numbers(["--seed", "--count"]);
    both::run(seed.unwrap_or(1), count.unwrap_or(10_000));
}

#[cfg(source)]
mod both {
    use crops::places::{CENTER_X, CENTER_Y};
    use oracle::generate::{self, CELLS_SALT, CellCoverage, Coverage, Crop, Random};
    use oracle::harness::steps::{Image, ellipse_widths, enclosing_rectangle};
    use oracle::second::Rectangle;
    use oracle::vectors::Lent;
    use oracle::{RECORD_WORDS, Report, harness, second};

    /// Every crop and one for the ellipse check, searched with it and without, the crop and one for cells read as cells, and a
    /// damaged or random file after each; the first difference ends the run.
    pub fn run(seed: u64, count: u64) {
        let mut coverage = [Coverage::default(), Coverage::default()];
        let mut cells = CellCoverage::default();
        for at in seed..seed + count {
            let crop = generate::crop(at);
            for crop in [&crop, &generate::ellipse(at)] {
                for (coverage, ellipse) in coverage.iter_mut().zip([false, true]) {
                    let (report, records) = whole_run(at, crop, ellipse);
                    coverage.add(report.answer, report.found, report.kept, &records);
                    if ellipse {
                        let kept = &records[..report.kept as usize * RECORD_WORDS];
                        add_verdicts(at, crop, kept, coverage);
                    }
                }
            }
            damaged_file(at, &mut coverage[at as usize % 2]);
            for crop in [crop, generate::filling(at)] {
                whole_cells(at, &crop, &mut cells);
            }
            damaged_cells(at, &mut cells);
        }
        println!("seeds {seed} to {}: no difference", seed + count - 1);
        finish(&coverage, &cells);
    }

    /// The tables, without the ellipse check and with it, and the rows that nothing has reached.
    fn finish([off, on]: &[Coverage; 2], cells: &CellCoverage) {
        println!("without the ellipse check\n{}", off.table());
        println!("with the ellipse check\n{}", on.table());
        print!("{}", cells.table());
        for row in on.missing().iter().chain(&cells.missing()) {
            println!("not hit: {row}");
        }
    }

    /// Both readings see the same widths about each kept centre, which are counted.
    fn add_verdicts(seed: u64, crop: &Crop, records: &[u32], coverage: &mut Coverage) {
        let (words, width, height) = (&crop.words[..], crop.width, crop.height);
        let image = Image {
            words,
            width,
            height,
        };
        for record in records.chunks_exact(RECORD_WORDS) {
            let centre = (record[CENTER_X], record[CENTER_Y]);
            let widths = second::ellipse_widths(words, width, height, centre);
            let source = ellipse_widths(image, centre);
            assert_eq!(
                [source.longest, source.shortest, source.good],
                [widths.longest, widths.shortest, widths.good],
                "seed {seed}: widths about {centre:?}"
            );
            coverage.add_verdict(&widths);
        }
    }

    /// One crop as a file and as words: reports, words, records and marks of both readings are the same.
    fn whole_run(seed: u64, crop: &Crop, ellipse: bool) -> (Report, Vec<u32>) {
        let file = crop.file();
        let lengths = (crop.words.len(), crop.capacity_words, crop.words.len());
        let [mut a, mut b] = [0; 2].map(|_| Lent::new(lengths.0, lengths.1, lengths.2));
        let report = a.search(harness::search_file, &file, ellipse);
        assert_eq!(
            report,
            b.search(second::search_file, &file, ellipse),
            "seed {seed}: reports"
        );
        assert!(a == b, "seed {seed}: buffers differ");
        let (words, w, h) = (&crop.words, crop.width, crop.height);
        let [mut c, mut d] = [0; 2].map(|_| Lent::new(0, lengths.1, lengths.2));
        let from_words = harness::search_words(words, w, h, &mut c.records, &mut c.marks, ellipse);
        let second = second::search_words(words, w, h, &mut d.records, &mut d.marks, ellipse);
        assert_eq!(from_words, report, "seed {seed}: words against file");
        assert_eq!(
            second, report,
            "seed {seed}: words against file, second reading"
        );
        assert!(
            c == d && c.records == a.records && c.marks == a.marks,
            "seed {seed}: buffers"
        );
        (report, a.records)
    }

    /// A file that may be refused, in buffers that may be refused.
    fn damaged_file(seed: u64, coverage: &mut Coverage) {
        let file = generate::bad_file(seed);
        let number = harness::check(&file);
        assert_eq!(
            number,
            second::check(&file),
            "seed {seed}: numbers of a file"
        );
        let size = crops::words_of(&file);
        let words = size + (seed % 5 == 1) as usize;
        let marks = size + (seed % 7 == 1) as usize;
        let [mut a, mut b] = [0; 2].map(|_| Lent::new(words, (seed % 90) as usize, marks));
        let ellipse = seed % 2 == 1;
        let report = a.search(harness::search_file, &file, ellipse);
        assert_eq!(
            report,
            b.search(second::search_file, &file, ellipse),
            "seed {seed}: damaged file"
        );
        assert!(a == b, "seed {seed}: buffers after a damaged file");
        coverage.add(report.answer, report.found, report.kept, &a.records);
    }

    /// Words to unpack into and cells, lent with any first content.
    #[derive(Clone, PartialEq)]
    struct LentCells {
        words: Vec<u64>,
        cells: Vec<u32>,
    }

    impl LentCells {
        fn new(random: &mut Random, words: usize, cells: usize) -> LentCells {
            LentCells {
                words: (0..words).map(|_| random.next()).collect(),
                cells: (0..cells).map(|_| random.next() as u32).collect(),
            }
        }

        /// Lengths that are mostly right, of an image of n words.
        fn of_any_length(random: &mut Random, n: usize) -> LentCells {
            let words = random.pick(&[n, n, n, n.saturating_sub(1), n + 1, 0]);
            let cells = random.pick(&[33, 33, 33, 33, 0, 1, 32, 34, 40, 66]);
            LentCells::new(random, words, cells)
        }
    }

    /// One crop as a file and as words, in buffers that fit and then as it may be refused: answers, rectangles, words and cells of
    /// both readings.
    fn whole_cells(seed: u64, crop: &Crop, coverage: &mut CellCoverage) {
        let mut random = Random::new(seed ^ CELLS_SALT);
        let (file, n) = (crop.file(), crop.words.len());
        let image = Image {
            words: &crop.words,
            width: crop.width,
            height: crop.height,
        };
        let lent = LentCells::new(&mut random, n, crops::CELL_ROWS);
        let (answer, after) = file_cells(seed, &file, &lent);
        let from_words = words_cells(seed, image, &lent.cells);
        assert_eq!(
            from_words,
            (answer, after.cells),
            "seed {seed}: cells of words against file"
        );
        assert!(
            after.words == crop.words,
            "seed {seed}: words unpacked for cells"
        );
        coverage.add(answer);
        add_rectangle(seed, image, coverage);
        let lent = LentCells::of_any_length(&mut random, n);
        coverage.add(file_cells(seed, &file, &lent).0);
        let width = random.pick(&[0, crop.width - 1, crop.width, crop.width + 1, !0]);
        let other = Image { width, ..image };
        coverage.add(words_cells(seed, other, &lent.cells).0);
    }

    /// Both readings have the same rectangle, which is counted.
    fn add_rectangle(seed: u64, image: Image, coverage: &mut CellCoverage) {
        let (width, height) = (image.width, image.height);
        let rectangle = second::enclosing_rectangle(image.words, width, height);
        let sides = |rectangle: Rectangle| {
            [
                rectangle.left,
                rectangle.top,
                rectangle.width,
                rectangle.height,
            ]
        };
        assert_eq!(
            rectangle.map(sides),
            enclosing_rectangle(image),
            "seed {seed}: rectangles"
        );
        if let Some(rectangle) = rectangle {
            coverage.add_rectangle(width, height, rectangle);
        }
    }

    /// A file that may be refused, in buffers that may be refused.
    fn damaged_cells(seed: u64, coverage: &mut CellCoverage) {
        let mut random = Random::new(seed ^ CELLS_SALT);
        let file = generate::bad_file(seed);
        let lent = LentCells::of_any_length(&mut random, crops::words_of(&file));
        let (answer, after) = file_cells(seed, &file, &lent);
        coverage.add(answer);
        assert!(
            matches!(answer, 0 | crops::BLANK) || after == lent,
            "seed {seed}: a refusal changes a buffer"
        );
    }

    /// The answer of both readings to a file, and what they leave.
    fn file_cells(seed: u64, file: &[u8], lent: &LentCells) -> (u32, LentCells) {
        let [mut a, mut b] = [lent.clone(), lent.clone()];
        let answer = harness::cells_file(file, &mut a.words, &mut a.cells);
        let second = second::cells_file(file, &mut b.words, &mut b.cells);
        assert_eq!(answer, second, "seed {seed}: cells of a file");
        assert!(a == b, "seed {seed}: buffers after cells of a file");
        (answer, a)
    }

    /// The answer of both readings to words, and the cells that they leave.
    fn words_cells(seed: u64, image: Image, cells: &[u32]) -> (u32, Vec<u32>) {
        let (words, width, height) = (image.words, image.width, image.height);
        let [mut a, mut b] = [cells.to_vec(), cells.to_vec()];
        let answer = harness::cells_words(words, width, height, &mut a);
        let second = second::cells_words(words, width, height, &mut b);
        assert_eq!(answer, second, "seed {seed}: cells of words");
        assert!(a == b, "seed {seed}: buffers after cells of words");
        (answer, a)
    }
}
