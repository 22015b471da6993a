//! Pairs of near inputs that end differently and the facts that are easy to get wrong, each run on the source's functions.
#![cfg(source)]

use oracle::harness::{self, steps};
use oracle::{RECORD_WORDS, Report};
use steps::Image;

/// The five scales of the source.
const SCALES: [f64; 5] = [0.065, 0.069, 0.07, 0.075, 0.08];

/// An image to draw on.
struct Canvas {
    words: Vec<u64>,
    width: u32,
    height: u32,
}

impl Canvas {
    fn white(width: u32, height: u32) -> Self {
        let words = vec![0; crops::image_words(width, height)];
        Self {
            words,
            width,
            height,
        }
    }

    /// Pixels of the given density in 1/256, from a seed.
    fn noise(width: u32, height: u32, density: u64, seed: u64) -> Self {
        let mut canvas = Self::white(width, height);
        let mut state = seed;
        for y in 0..height {
            for x in 0..width {
                if random(&mut state) % 256 < density {
                    canvas.black(x, y);
                }
            }
        }
        canvas
    }

    fn black(&mut self, x: u32, y: u32) {
        crops::set_pixel(&mut self.words, self.width, x, y);
    }

    /// Three by three black pixels.
    fn block(&mut self, x: u32, y: u32) {
        for y in y - 1..=y + 1 {
            for x in x - 1..=x + 1 {
                self.black(x, y);
            }
        }
    }

    /// A row and a column of single-pixel runs that cross at a white centre.
    fn cross(&mut self, x: u32, y: u32) {
        for distance in [1, 3, 5] {
            self.black(x - distance, y);
            self.black(x + distance, y);
            self.black(x, y - distance);
            self.black(x, y + distance);
        }
    }

    /// Eleven runs of a module each, the first black, from a column on.
    fn row_of_runs(&mut self, x: u32, y: u32, module: u32) {
        for place in 0..11 * module {
            if (place / module).is_multiple_of(2) {
                self.black(x + place, y);
            }
        }
    }

    /// Six black rings with an odd module size.
    fn rings(&mut self, x: u32, y: u32, module: u32) {
        let (width, height) = (self.width, self.height);
        for (column, row) in (0..height).flat_map(|y| (0..width).map(move |x| (x, y))) {
            let distance = f64::hypot(
                f64::from(column) - f64::from(x),
                f64::from(row) - f64::from(y),
            );
            let ring = (distance / f64::from(module) + 0.5).floor() as u32;
            if ring < 6 && ring % 2 == 1 {
                self.black(column, row);
            }
        }
    }

    fn image(&self) -> Image<'_> {
        Image {
            words: &self.words,
            width: self.width,
            height: self.height,
        }
    }

    /// Whether the marks have the bit of a column and row, the column possibly in the padding.
    fn marked(&self, marks: &[u64], x: u32, y: u32) -> bool {
        crops::pixel(marks, self.width, x, y)
    }

    /// The whole search, with room for 400 records.
    fn search(&self) -> (Report, Vec<u32>) {
        let mut records = vec![0; 400 * RECORD_WORDS];
        let mut marks = vec![0; self.words.len()];
        let report = harness::search_words(
            &self.words,
            self.width,
            self.height,
            &mut records,
            &mut marks,
            false,
        );
        records.truncate(report.kept as usize * RECORD_WORDS);
        (report, records)
    }

    /// Answer and cells, which are 7 before.
    fn cells(&self) -> (u32, [u32; 33]) {
        let mut cells = [7; 33];
        let answer = harness::cells_words(&self.words, self.width, self.height, &mut cells);
        (answer, cells)
    }
}

/// The next number of a small generator.
fn random(state: &mut u64) -> u64 {
    *state = state
        .wrapping_mul(6364136223846793005)
        .wrapping_add(1442695040888963407);
    *state >> 33
}

fn ones(marks: &[u64]) -> u32 {
    marks.iter().map(|word| word.count_ones()).sum()
}

fn union(one: &[u64], other: &[u64]) -> Vec<u64> {
    one.iter()
        .zip(other)
        .map(|(one, other)| one | other)
        .collect()
}

#[test]
fn sample_crop() {
    let mut file = vec![0x10, 0x21, 0x02, 0x10];
    file.resize(4 + 165, 0);
    let (mut words, mut marks) = ([0; 33], [0; 33]);
    let report = harness::search_file(&file, &mut words, &mut [0; 40], &mut marks, false);
    let expected = Report {
        answer: 8,
        found: 0,
        kept: 0,
        marked: 242,
    };
    assert_eq!(report, expected);
}

#[test]
fn pair_widths() {
    assert!(steps::widths_pass(&[1; 11]));
    for index in [0, 2, 4, 6, 8, 10] {
        let mut runs = [2; 11];
        assert!(steps::widths_pass(&runs));
        runs[index] = 1;
        assert!(!steps::widths_pass(&runs));
    }
    for index in [1, 3, 7, 9] {
        let mut runs = [2; 11];
        runs[index] = 3;
        assert!(!steps::widths_pass(&runs));
    }
}

#[test]
fn pair_last_column() {
    let from = |column| {
        let mut canvas = Canvas::white(33, 33);
        canvas.row_of_runs(column, 10, 1);
        steps::row_search(canvas.image(), 10, 6).0
    };
    assert_eq!(from(15), Some((20, 6, [1; 11])));
    assert_eq!(from(16), None);
}

#[test]
fn pair_area() {
    let black = |pixels: &[(u32, u32)], x, y| {
        let mut canvas = Canvas::white(33, 33);
        pixels.iter().for_each(|(x, y)| canvas.black(*x, *y));
        steps::area(canvas.image(), x, y).0
    };
    assert_eq!(black(&[(0, 0), (1, 1)], 0, 0), Some(true));
    assert_eq!(black(&[(0, 0)], 0, 0), Some(false));
    let five = [(9, 9), (10, 9), (11, 9), (9, 10), (10, 11)];
    assert_eq!(black(&five, 10, 10), Some(true));
    assert_eq!(black(&five[1..], 10, 10), Some(false));
    assert_eq!(black(&five, 32, 10), None);
}

#[test]
fn pair_variance() {
    assert_eq!(steps::variance([10; 11], [10; 11]), 10.0);
}

#[test]
fn pair_centres() {
    let centres = [(50, 20), (50, 22), (50, 24)];
    assert_eq!(steps::deviation(&centres), ((0, 1), (50, 22)));
    assert_eq!(steps::kept(&centres), [1]);
}

#[test]
fn pair_size_and_boundary() {
    assert_eq!(steps::symbol_size(6, 0.03, 0.066, 1.0), (42, 42));
    let boundary = steps::simple_boundary((60, 60), 6, (120, 120), None);
    assert_eq!(boundary, (41, 82, 81, 39));
}

/// Boundaries with left 0, width 60 and height 66 are sought among circles; the point follows.
#[test]
fn pair_point_and_the_cap() {
    for (bottom, expected) in [(0, (22, 19)), (50, (22, 65))] {
        let size = (60, 66 + bottom);
        let mut seen = 0;
        for (radius, y) in (6..40).flat_map(|radius| (0..size.1).map(move |y| (radius, y))) {
            let boundary = steps::simple_boundary((30, y), radius, size, Some(SCALES[0]));
            if boundary == (0, 60, 66 + bottom, bottom) {
                let point = steps::adjusted_point((30, y), radius, size, SCALES[0], (10, 9));
                assert_eq!(point, expected);
                seen += 1;
            }
        }
        assert!(seen > 0);
    }
}

#[test]
fn pair_class() {
    let turned = [0.0, 44.0, 46.0, 348.0].map(|rotation| harness::class(1, rotation));
    assert_eq!(turned, [0, 0, 1, 0]);
    let without = [0, 2, 3].map(|outcome| harness::class(outcome, 0.0));
    assert_eq!(without, [4; 3]);
}

/// All thirty cells of a row.
const ALL_CELLS: u32 = (1 << 30) - 1;

/// A rectangle of one row is read in row 0, wherever it lies.
#[test]
fn pair_row_of_cells() {
    for (row, cells) in [(0, ALL_CELLS), (1, 0), (40, 0)] {
        let mut canvas = Canvas::white(50, 50);
        (0..50).for_each(|x| canvas.black(x, row));
        assert_eq!(
            steps::enclosing_rectangle(canvas.image()),
            Some([0, row, 50, 1])
        );
        assert_eq!(canvas.cells(), (0, [cells; 33]));
    }
}

#[test]
fn pair_pixel_of_cells() {
    let mut canvas = Canvas::white(50, 50);
    assert_eq!(canvas.cells(), (10, [7; 33]));
    canvas.black(49, 0);
    assert_eq!(
        steps::enclosing_rectangle(canvas.image()),
        Some([49, 0, 1, 1])
    );
    assert_eq!(canvas.cells(), (0, [ALL_CELLS; 33]));
}

/// A cell of an odd row is half a cell further: columns 1 and 2 of a rectangle of 60 by 66, and at its end both in column 59.
#[test]
fn pair_half_column_of_cells() {
    for (column, even, odd) in [(1, 1, 0), (2, 0, 1), (59, 1 << 29, 1 << 29)] {
        let mut canvas = Canvas::white(60, 66);
        (1..66).for_each(|y| canvas.black(column, y));
        canvas.black(0, 0);
        canvas.black(59, 0);
        let rows = [even, odd].into_iter().cycle().take(33);
        assert!(canvas.cells().1.into_iter().eq(rows), "column {column}");
    }
}

/// A rectangle of 33 rows at the top edge, below it with rows from 12 on read in row 32, and with all read there, above the rectangle.
#[test]
fn pair_cap_of_cells() {
    for (top, row, seen) in [
        (0, 15, Some(15)),
        (20, 25, Some(5)),
        (20, 40, None),
        (33, 48, None),
    ] {
        let mut canvas = Canvas::white(40, 66);
        (0..40).for_each(|x| canvas.black(x, row));
        canvas.black(0, top);
        canvas.black(39, top + 32);
        assert_eq!(
            steps::enclosing_rectangle(canvas.image()),
            Some([0, top, 40, 33])
        );
        let (answer, cells) = canvas.cells();
        assert_eq!(answer, 0);
        let full = cells.iter().position(|word| *word == ALL_CELLS);
        assert_eq!(full, seen, "top {top}, row {row}");
    }
}

/// Fact 1: from a black centre the corrected centre is (0,0).
#[test]
fn black_centre_goes_to_the_corner() {
    for seed in 0..200 {
        let mut canvas = Canvas::noise(65, 50, seed % 256, seed);
        let mut state = seed;
        let x = random(&mut state) as u32 % 65;
        let y = random(&mut state) as u32 % 50;
        canvas.black(x, y);
        assert_eq!(steps::corrected_centre(canvas.image(), (x, y)).0, (0, 0));
    }
}

/// Fact 2: candidates found and all set aside.
#[test]
fn found_and_all_set_aside() {
    let mut canvas = Canvas::white(49, 49);
    for (x, y) in [(12, 24), (36, 24), (24, 12), (24, 36)] {
        canvas.rings(x, y, 1);
    }
    let expected = Report {
        answer: 9,
        found: 4,
        kept: 0,
        marked: 734,
    };
    assert_eq!(canvas.search(), (expected, Vec::new()));
}

/// Fact 3: with a black start, column run 5 is 0 and its neighbours each count the centre row.
#[test]
fn column_run_five_can_be_zero() {
    let mut canvas = Canvas::white(33, 33);
    for row in (12..=20).step_by(2) {
        canvas.black(20, row);
    }
    let ((passed, runs), _) = steps::verify_vertical(canvas.image(), 16, 20);
    assert!(passed);
    assert_eq!(runs, [1, 1, 1, 1, 1, 0, 1, 1, 1, 1, 1]);
}

/// Fact 4: the pixel that opens the seventh column run is read, the one after it not; never row 0.
#[test]
fn seventh_column_run_is_opened() {
    let mut canvas = Canvas::white(33, 33);
    for row in [9, 11, 13, 17, 19, 21] {
        canvas.black(20, row);
    }
    let (runs, marks) = steps::column_runs(canvas.image(), 20, 16, true);
    assert_eq!(runs, [1; 6]);
    assert!(canvas.marked(&marks, 20, 22) && !canvas.marked(&marks, 20, 23));
    assert_eq!(ones(&marks), 7);
    let (_, marks) = steps::column_runs(Canvas::white(33, 33).image(), 20, 16, false);
    assert!(canvas.marked(&marks, 20, 1) && !canvas.marked(&marks, 20, 0));
}

/// Fact 4: a walk left reads the pixel at column 0.
#[test]
fn walk_left_reads_column_zero() {
    let mut canvas = Canvas::white(33, 33);
    canvas.black(21, 16);
    let ((length, ends), marks) = steps::width_at_degree(canvas.image(), (20, 16), 0);
    assert_eq!((length, ends), (20, [(0.0, 16.0), (21.0, 16.0)]));
    assert!((0..=21).all(|x| canvas.marked(&marks, x, 16)));
    assert_eq!(ones(&marks), 22);
}

/// Fact 4: the walk right at 97 degrees is made and marked.
#[test]
fn all_four_walks_are_marked() {
    for seed in 0..50 {
        let canvas = Canvas::noise(70, 60, 8, seed);
        let walks = [7, 97].map(|degree| steps::width_at_degree(canvas.image(), (30, 30), degree));
        let [((_, first), level), ((_, second), steep)] = walks;
        let (centre, marks) = steps::corrected_centre(canvas.image(), (30, 30));
        assert_eq!(marks, union(&level, &steep));
        let (x, y) = steps::find_center([first[0], first[1], second[0]]);
        assert_eq!(centre, (x.round() as u32, y.round() as u32));
    }
}

/// Fact 5: column width - 6 is read only while leading white is skipped.
#[test]
fn last_column_is_read_by_skipping() {
    let mut canvas = Canvas::white(40, 33);
    let (_, marks) = steps::row_search(canvas.image(), 10, 6);
    assert!(canvas.marked(&marks, 34, 10));
    assert_eq!(ones(&marks), 29);
    canvas.black(6, 10);
    let (_, marks) = steps::row_search(canvas.image(), 10, 6);
    assert!(!canvas.marked(&marks, 34, 10));
    assert_eq!(ones(&marks), 28);
}

/// Fact 6: a failed window of single pixels ends the row once a search has started at it.
#[test]
fn present_column_is_where_the_search_started() {
    let found = |module| {
        let mut canvas = Canvas::white(80, 40);
        canvas.row_of_runs(10, 20, module);
        canvas.cross(60, 20);
        steps::sweep(canvas.image(), 100).0
    };
    assert!(found(1).is_empty());
    let centres: Vec<_> = found(2).iter().map(|found| found.centre).collect();
    assert_eq!(centres, [(60, 20)]);
}

/// Fact 7: a corner that would turn to a negative coordinate is mirrored.
#[test]
fn corners_are_mirrored() {
    assert_eq!(steps::get_point((10, 10), (40, 10), 180), (20.0, 10.0));
    assert_eq!(steps::get_point((10, 10), (10, 40), 90), (20.0, 10.0));
}

/// Fact 8: every scale corrects the last centre again; the plain box comes from the found one.
#[test]
fn centres_are_corrected_in_turn() {
    let mut outcomes = [0; 3];
    for seed in 0..400 {
        let canvas = Canvas::noise(70, 60, seed % 64, seed);
        let found = (20 + seed as u32 % 30, 20 + seed as u32 % 17);
        let (boxed, _) = steps::box_symbol(canvas.image(), found, 8);
        outcomes[boxed.outcome as usize] += 1;
        let (centre, scales, lost) = corrections(&canvas, found, boxed.scale);
        assert_eq!((boxed.centre, boxed.scale), (centre, scales));
        assert_eq!(boxed.outcome == 2, lost);
        if boxed.outcome != 1 {
            assert_eq!(boxed.corners, plain_box(&canvas, found, 8));
        }
    }
    assert!(outcomes[0] > 0 && outcomes[2] > 0, "{outcomes:?}");
}

/// The last centre inside the image after at most so many corrections, their number, and whether one was lost.
fn corrections(canvas: &Canvas, found: (u32, u32), most: u32) -> ((u32, u32), u32, bool) {
    let mut centre = found;
    for scale in 1..=most {
        let (next, _) = steps::corrected_centre(canvas.image(), centre);
        if next.0 >= canvas.width || next.1 >= canvas.height {
            return (centre, scale, true);
        }
        centre = next;
    }
    (centre, most, false)
}

/// The corners of the plain box in the record's order.
fn plain_box(canvas: &Canvas, centre: (u32, u32), radius: u32) -> [(f32, f32); 4] {
    let size = (canvas.width, canvas.height);
    let (left, right, top, bottom) = steps::simple_boundary(centre, radius, size, None);
    [(left, bottom), (left, top), (right, bottom), (right, top)].map(|(x, y)| (x as f32, y as f32))
}

/// Fact 9: a level walk in a white image goes through padding and all later rows.
#[test]
fn walks_read_padding_and_later_rows() {
    let canvas = Canvas::white(65, 40);
    let ((_, ends), marks) = steps::width_at_degree(canvas.image(), (60, 20), 0);
    assert!(marks[..40].iter().all(|word| *word == 0));
    assert!(marks[40..].iter().all(|word| *word == u64::MAX));
    assert_eq!(ends[1], (20.0 * 128.0, 20.0));
    let (_, marks) = steps::corrected_centre(canvas.image(), (60, 20));
    assert!(canvas.marked(&marks, 66, 20) && canvas.marked(&marks, 127, 28));
}

/// Fact 10: a boundary is at least 33 wide and 30 high when the centre is inside.
#[test]
fn boundaries_leave_room() {
    for size in [(33, 33), (33, 70), (64, 34), (200, 120)] {
        for (x, y) in (0..size.0).flat_map(|x| (0..size.1).map(move |y| (x, y))) {
            for radius in [6, 7, 9, 20, 100, 1018] {
                for scale in [None, Some(SCALES[0]), Some(SCALES[4])] {
                    let (left, right, top, bottom) =
                        steps::simple_boundary((x, y), radius, size, scale);
                    assert!(right >= left + 33 && top >= bottom + 30);
                }
            }
        }
    }
}

/// Fact 10: the variance is a number, for runs of any length that an image has.
#[test]
fn variance_is_a_number() {
    for (row, column) in [(0, 0), (0, 2048), (2048, 0), (2048, 2048), (1, 3)] {
        assert!(steps::variance([row; 11], [column; 11]).is_finite());
    }
}

/// Fact 10: least and greatest radius of a window that passes.
#[test]
fn radius_of_a_window() {
    let mut canvas = Canvas::white(2048, 33);
    canvas.row_of_runs(6, 10, 1);
    assert_eq!(
        steps::row_search(canvas.image(), 10, 6).0,
        Some((11, 6, [1; 11]))
    );
    let mut canvas = Canvas::white(2048, 33);
    let runs = [1, 1, 1, 1, 1, 2025, 1, 1, 1, 1, 1];
    let ends = runs.iter().scan(6, |column, run| {
        *column += run;
        Some((*column - run, *column))
    });
    for (start, end) in ends.step_by(2) {
        (start..end).for_each(|x| canvas.black(x, 10));
    }
    let window = steps::row_search(canvas.image(), 10, 6).0;
    assert_eq!(window, Some((1023, 1018, runs)));
}

/// A symbol drawn from the source's own points is turned by the degree that it was drawn for.
#[test]
fn drawn_symbols_are_turned() {
    for degree in (0..350).step_by(2) {
        let canvas = symbol(degree);
        let (report, records) = canvas.search();
        assert_eq!(report.answer, 0);
        let turned = records
            .chunks_exact(RECORD_WORDS)
            .any(|record| record[26] == 1 && f32::from_bits(record[28]) == degree as f32);
        assert!(turned, "{degree}");
    }
}

/// Rings and the black areas of the six groups, for the first scale.
fn symbol(degree: u32) -> Canvas {
    let (size, centre) = ((500, 500), (250, 250));
    let mut canvas = Canvas::white(size.0, size.1);
    canvas.rings(centre.0, centre.1, 9);
    let black = [
        (10, 9),
        (11, 9),
        (11, 10),
        (7, 15),
        (8, 16),
        (20, 16),
        (20, 17),
        (10, 22),
        (10, 23),
        (17, 22),
        (17, 23),
    ];
    for point in black {
        let adjusted = steps::adjusted_point(centre, 50, size, SCALES[0], point);
        let (x, y) = steps::get_point(centre, adjusted, degree);
        canvas.block(x as u32, y as u32);
    }
    canvas
}
