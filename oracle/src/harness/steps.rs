// The source's steps one by one, on plain values. A step that reads an image also gives the marks.

use std::hint::black_box;

use super::super::super::common::BitMatrix;
use super::super::super::{Point, Record, Report, point};
use super::super::Trace;
use super::cells::cells_of;
use super::search::{boxed, search_image};
use super::{Circle, detect, find_concentric_circles, read_bits};

/// An unpacked image.
#[derive(Clone, Copy, Debug)]
pub struct Image<'a> {
    pub words: &'a [u64],
    pub width: u32,
    pub height: u32,
}

/// A candidate of the sweep.
#[derive(Clone, Copy, Debug, PartialEq, Eq)]
pub struct Candidate {
    pub centre: (u32, u32),
    pub radius: u32,
    pub row_runs: [u32; 11],
    pub column_runs: [u32; 11],
}

/// What a candidate's box and turn came to; `scale` counts the scales that were tried.
#[derive(Clone, Copy, Debug, PartialEq)]
pub struct Boxed {
    pub outcome: u32,
    pub scale: u32,
    pub rotation: f32,
    pub centre: (u32, u32),
    pub corners: [(f32, f32); 4],
}

/// Longest and shortest length of the ellipse check's walks, and how many of their end points pass.
#[derive(Clone, Copy, Debug, PartialEq, Eq)]
pub struct EllipseWidths {
    pub longest: u32,
    pub shortest: u32,
    pub good: u32,
}

/// What a step answers, and the marks of its reads.
pub type Marked<T> = (T, Vec<u64>);

/// Centre column, radius and runs of a window.
pub type Window = (u32, u32, [u32; 11]);

/// Length and ends, left and right, of a width.
pub type Width = (u32, [(f32, f32); 2]);

/// Runs a step on an image.
fn on<T>(image: Image, step: impl FnOnce(&BitMatrix) -> T) -> Marked<T> {
    let matrix = BitMatrix::of(image.words, image.width, image.height);
    let result = step(&matrix);
    let mut marks = vec![0; image.words.len()];
    matrix.marks().write_to(&mut marks);
    (result, marks)
}

/// An image prepared once, with a log that its steps add to. For timing.
pub struct Prepared(BitMatrix);

impl Prepared {
    pub fn new(image: Image) -> Self {
        Self(BitMatrix::of(image.words, image.width, image.height))
    }

    /// How many of a row's first columns are black.
    #[inline(never)]
    pub fn count_row(&self, row: u32, columns: u32) -> u32 {
        let mut count = 0;
        for column in 0..columns {
            count += u32::from(self.0.get(column, row));
        }
        count
    }

    /// The whole search, with the ellipse check or without. The log is cleared first and counted at the end; without a log nothing
    /// of this is done.
    #[inline(never)]
    pub fn search(&self, records: &mut [u32], ellipse: bool) -> Report {
        search_image(&self.0, records, ellipse)
    }

    /// Answer and cells of a symbol that fills the image.
    #[inline(never)]
    pub fn cells(&self, cells: &mut [u32]) -> u32 {
        cells_of(&self.0, cells)
    }

    /// The source's `read_bits` by itself; whether it gives cells.
    #[inline(never)]
    pub fn read_bits(&self) -> bool {
        black_box(read_bits(&self.0)).is_ok()
    }

    /// How many candidates the sweep finds.
    #[inline(never)]
    pub fn sweep(&self, capacity: usize) -> u32 {
        find_concentric_circles(&self.0, capacity).map_or(0, |circles| circles.len() as u32)
    }
}

/// A white image, for steps that ask only for its dimensions.
fn blank(width: u32, height: u32) -> BitMatrix {
    BitMatrix::of(&[], width, height)
}

/// A circle without runs.
fn circle(image: &BitMatrix, centre: (u32, u32), radius: u32) -> Circle<'_> {
    Circle {
        trace: Trace::default(),
        center: centre.into(),
        radius,
        horizontal_buckets: [0; 11],
        vertical_buckets: [0; 11],
        image,
    }
}

/// Whether eleven runs pass the width test.
pub fn widths_pass(runs: &[u32; 11]) -> bool {
    super::validate_bullseye_widths(runs)
}

/// The variance of row runs and column runs.
pub fn variance(row_runs: [u32; 11], column_runs: [u32; 11]) -> f32 {
    let image = blank(1, 1);
    let mut circle = circle(&image, (0, 0), 0);
    circle.horizontal_buckets = row_runs;
    circle.vertical_buckets = column_runs;
    circle.calculate_circle_variance()
}

/// Deviation and mean of a list of centres that is not empty, each x then y.
pub fn deviation(centres: &[(u32, u32)]) -> ((u32, u32), (u32, u32)) {
    let image = blank(1, 1);
    let circles: Vec<_> = (centres.iter())
        .map(|centre| circle(&image, *centre, 0))
        .collect();
    Circle::calculate_center_point_std_dev(&circles)
}

/// Indices of the centres that are kept. The radius carries the index; equal runs leave the order.
pub fn kept(centres: &[(u32, u32)]) -> Vec<u32> {
    let image = blank(1, 1);
    let circles: Vec<_> = (centres.iter().zip(0..))
        .map(|(centre, index)| circle(&image, *centre, index))
        .collect();
    let kept = detect(Some(circles)).expect("there was a sweep");
    kept.iter().map(|circle| circle.radius).collect()
}

/// Indices of the candidates that are kept, ranked, each with its variance. The radius carries the index.
pub fn kept_and_ranked(candidates: &[Candidate]) -> Vec<(u32, f32)> {
    let image = blank(1, 1);
    let kept = Ranking::new(&image, candidates).detect();
    (kept.iter())
        .map(|circle| (circle.radius, circle.calculate_circle_variance()))
        .collect()
}

/// Candidates prepared once, to be kept and ranked. For timing.
pub struct Ranking<'a>(Vec<Circle<'a>>);

impl<'a> Ranking<'a> {
    /// The image is any; the source asks nothing of it here.
    fn new(image: &'a BitMatrix, candidates: &[Candidate]) -> Self {
        let indexed = |(candidate, index): (&Candidate, u32)| Circle {
            horizontal_buckets: candidate.row_runs,
            vertical_buckets: candidate.column_runs,
            ..circle(image, candidate.centre, index)
        };
        Self(candidates.iter().zip(0..).map(indexed).collect())
    }

    fn detect(self) -> Vec<Circle<'a>> {
        detect(Some(self.0)).expect("there was a sweep")
    }

    /// How many are kept.
    #[inline(never)]
    pub fn run(self) -> u32 {
        self.detect().len() as u32
    }
}

impl Prepared {
    /// Candidates to be kept and ranked.
    pub fn ranking(&self, candidates: &[Candidate]) -> Ranking<'_> {
        Ranking::new(&self.0, candidates)
    }

    /// The outcome of a circle's box and turn.
    #[inline(never)]
    pub fn box_symbol(&self, centre: (u32, u32), radius: u32) -> u32 {
        boxed(&self.0, &mut circle(&self.0, centre, radius)).outcome
    }
}

/// Width and height of the symbol by a radius and the three parameters.
pub fn symbol_size(radius: u32, adjust: f64, area: f64, last: f64) -> (u32, u32) {
    let image = blank(1, 1);
    super::guess_barcode_size_general(&circle(&image, (0, 0), radius), adjust, area, last)
}

/// Left, right, top, bottom in an image of these dimensions: plain without a scale, tight with one.
pub fn simple_boundary(
    centre: (u32, u32),
    radius: u32,
    (width, height): (u32, u32),
    scale: Option<f64>,
) -> (u32, u32, u32, u32) {
    let image = blank(width, height);
    let circle = circle(&image, centre, radius);
    super::calculate_simple_boundary(&circle, Some(&image), scale, scale.is_some())
}

/// A point of the symbol's grid in an image of these dimensions.
pub fn adjusted_point(
    centre: (u32, u32),
    radius: u32,
    (width, height): (u32, u32),
    scale: f64,
    (x, y): (u32, u32),
) -> (u32, u32) {
    let image = blank(width, height);
    let adjusted =
        super::adjust_point_alternate(point(x, y), &circle(&image, centre, radius), scale);
    (adjusted.x, adjusted.y)
}

/// A point turned about a centre by a whole number of degrees.
pub fn get_point(centre: (u32, u32), original: (u32, u32), degree: u32) -> (f32, f32) {
    let turned = super::get_point(centre.into(), original.into(), degree as f32);
    (turned.x, turned.y)
}

/// The centre of the circle through three points.
pub fn find_center(points: [(f32, f32); 3]) -> (f32, f32) {
    let [first, second, third] = points.map(|(x, y)| Point { x, y });
    let centre = Circle::find_center(first, second, third);
    (centre.x, centre.y)
}

/// Length and ends, left and right, of the white width at a whole number of degrees.
pub fn width_at_degree(image: Image, centre: (u32, u32), degree: u32) -> Marked<Width> {
    on(image, |matrix| {
        let (length, ends) = circle(matrix, centre, 0).find_width_at_degree(degree as f32);
        (length, ends.map(|end| (end.x, end.y)))
    })
}

/// Whether the widths about a centre are those of an ellipse.
pub fn detect_ellipse(image: Image, centre: (u32, u32)) -> Marked<bool> {
    on(image, |matrix| circle(matrix, centre, 0).detect_ellipse().0)
}

/// What the ellipse check goes by, from a centre: the longest and the shortest of its 72 lengths, and how many of the 144 end points
/// pass with their halves. The source's functions give lengths, end points and sums; it tells none of them itself.
pub fn ellipse_widths(image: Image, centre: (u32, u32)) -> EllipseWidths {
    let matrix = BitMatrix::of(image.words, image.width, image.height);
    let circle = circle(&matrix, centre, 0);
    let walks = || (0..72).map(|walk| circle.find_width_at_degree(walk as f32 * 5.0));
    let longest = walks().map(|(length, _)| length).max().unwrap_or_default();
    let shortest = walks().map(|(length, _)| length).min().unwrap_or_default();
    let sum = |end: &Point| ellipse_sum(centre, (end.x, end.y), [longest / 2, shortest / 2]);
    let beyond = (walks().flat_map(|(_, ends)| ends)).filter(|end| sum(end) > 1.0);
    EllipseWidths {
        longest,
        shortest,
        good: 144 - beyond.count() as u32,
    }
}

/// The sum that tells whether an end point passes with a longest and a shortest half.
pub fn ellipse_sum(centre: (u32, u32), (x, y): (f32, f32), [longest, shortest]: [u32; 2]) -> f64 {
    Circle::check_ellipse_point(centre.into(), Point { x, y }, longest, shortest)
}

/// The corrected centre, which may lie outside the image.
pub fn corrected_centre(image: Image, centre: (u32, u32)) -> Marked<(u32, u32)> {
    on(image, |matrix| {
        let mut circle = circle(matrix, centre, 0);
        circle.calculate_high_accuracy_center();
        (circle.center.x, circle.center.y)
    })
}

/// Left, top, width and height of the enclosing rectangle; none if no pixel is black. No read of it is marked.
pub fn enclosing_rectangle(image: Image) -> Option<[u32; 4]> {
    BitMatrix::of(image.words, image.width, image.height).getEnclosingRectangle()
}

/// Whether the 3 by 3 area about a pixel is black; none if it leaves the image.
pub fn area(image: Image, x: u32, y: u32) -> Marked<Option<bool>> {
    on(image, |matrix| matrix.try_get_area(x, y, 3))
}

/// Centre column, radius and runs of the next window in a row.
pub fn row_search(image: Image, row: u32, start: u32) -> Marked<Option<Window>> {
    on(image, |matrix| {
        super::find_next_bullseye_horizontal(matrix, row, start)
    })
}

/// The six runs of a column from a row on, up (row + 1) or down.
pub fn column_runs(image: Image, column: u32, row: u32, up: bool) -> Marked<[u32; 6]> {
    on(image, |matrix| {
        super::get_column_vector(matrix, column, row, up)
    })
}

/// Whether one of the three columns passes, and the column runs.
pub fn verify_vertical(image: Image, row: u32, column: u32) -> Marked<(bool, [u32; 11])> {
    on(image, |matrix| {
        super::verify_bullseye_vertical(matrix, row, column)
    })
}

/// The candidates, at most one more than the capacity.
pub fn sweep(image: Image, capacity: usize) -> Marked<Vec<Candidate>> {
    on(image, |matrix| {
        let circles = find_concentric_circles(matrix, capacity).unwrap_or_default();
        let candidate = |circle: &Circle| Candidate {
            centre: (circle.center.x, circle.center.y),
            radius: circle.radius,
            row_runs: circle.horizontal_buckets,
            column_runs: circle.vertical_buckets,
        };
        circles.iter().map(candidate).collect()
    })
}

/// Box and turn of a circle.
pub fn box_symbol(image: Image, centre: (u32, u32), radius: u32) -> Marked<Boxed> {
    on(image, |matrix| {
        let Record {
            outcome,
            scale,
            rotation,
            centre: [x, y],
            corners,
            ..
        } = boxed(matrix, &mut circle(matrix, centre, radius));
        Boxed {
            outcome,
            scale,
            rotation,
            centre: (x, y),
            corners: corners.map(|corner| (corner.x, corner.y)),
        }
    })
}
