//! What the ellipse check sees from the centre of a record: the end points of its walks, and half of the longest and the shortest. A record
//! has none of it; it is worked out from the crop's pixels by the rule of docs/MANUAL.md.
use crate::image::Image;
use crops::{Point, WORD_BITS};

/// Degrees from one walk to the next.
const STEP: usize = 5;

/// What the check sees.
pub struct Check {
    /// As found.
    pub centre: (u32, u32),
    /// Of each walk the left end and the right one.
    pub ends: Vec<Point>,
    /// Half of the longest walk's length; it stands under x.
    pub longest: u32,
    /// Half of the shortest walk's; it stands under y.
    pub shortest: u32,
}

impl Check {
    pub fn of(image: &Image, centre: (u32, u32)) -> Self {
        let walks = (0..360).step_by(STEP);
        let walks: Vec<Walk> = walks.map(|at| Walk::of(image, centre, at)).collect();
        let lengths = || walks.iter().map(|walk| walk.length);
        Check {
            centre,
            longest: lengths().max().unwrap_or(0) / 2,
            shortest: lengths().min().unwrap_or(0) / 2,
            ends: walks.iter().flat_map(|walk| walk.ends).collect(),
        }
    }

    /// Whether an end point lies on the ellipse of the two halves or within it; a quotient that is no number passes.
    pub fn passes(&self, end: Point) -> bool {
        let part = |at: f32, centre: u32, half: u32| {
            let (away, half) = (f64::from(at) - f64::from(centre), f64::from(half));
            away * away / (half * half)
        };
        let (x, y) = self.centre;
        let sum = part(end.x, x, self.longest) + part(end.y, y, self.shortest);
        sum <= 1.0 || sum.is_nan()
    }

    /// How many end points pass.
    pub fn passing(&self) -> usize {
        self.ends.iter().filter(|&&end| self.passes(end)).count()
    }
}

/// The steps to the left and to the right at one angle, together, and both ends.
struct Walk {
    length: u32,
    ends: [Point; 2],
}

impl Walk {
    fn of(image: &Image, centre: (u32, u32), degree: usize) -> Self {
        let (x, _) = centre;
        let angle = (sine(degree + 90), sine(degree));
        let point = |column: u32| turned(centre, column, angle);
        let goes_on = |column: u32| is_white(image, point(column));
        let left = (1..=x).rev().find(|&column| !goes_on(column));
        let left = left.unwrap_or(0);
        let right = (x + 1..).find(|&column| !goes_on(column));
        let right = right.expect("the words end");
        Walk {
            length: (x - left) + (right - x - 1),
            ends: [left, right].map(point),
        }
    }
}

/// Whether a walk goes on at a point: its bit is white, and not past the last word.
fn is_white(image: &Image, point: Point) -> bool {
    let (x, y) = (point.x as usize, point.y as usize);
    let place = y * crops::row_words(image.width) + x / WORD_BITS;
    let word = image.words().get(place);
    word.is_some_and(|word| word >> (x % WORD_BITS) & 1 == 0)
}

/// The point of a column in the centre's row, turned about the centre by an angle, of which cosine and sine are given.
fn turned((x, y): (u32, u32), column: u32, (cosine, sine): (f32, f32)) -> Point {
    let (x, y) = (x as f32, y as f32);
    let across = column as f32 - x;
    Point {
        x: (cosine * across + x).abs(),
        y: (sine * across + y).abs(),
    }
}

/// The f32 nearest to the sine of a whole degree.
fn sine(degree: usize) -> f32 {
    match degree % 360 {
        first @ 0..=90 => (first as f64).to_radians().sin() as f32,
        second @ 91..=180 => sine(180 - second),
        third_or_fourth => -sine(third_or_fourth - 180),
    }
}

#[cfg(test)]
mod tests {
    use super::*;
    use crate::run;
    use crops::Outcome;
    use oracle::{
        generate,
        second::{EllipseVerdict, ellipse_widths},
        sines::SINES,
    };

    #[test]
    fn sines_are_those_of_the_table() {
        for degree in 0..450 {
            assert_eq!(sine(degree), SINES[degree % 360], "{degree}");
        }
    }

    /// An image with black pixels.
    fn image(width: usize, height: usize, black: impl Fn(u32, u32) -> bool) -> Image {
        let mut image = Image::white(width, height).expect("dimensions of a crop");
        for y in 0..height as u32 {
            for x in (0..width as u32).filter(|&x| black(x, y)) {
                image.set(x, y, true);
            }
        }
        image
    }

    /// A black frame, 20 pixels to the left and right of the centre and 10 above and below it.
    #[test]
    fn walks_end_at_the_first_black_point() {
        let frame = image(100, 80, |x, y| x.abs_diff(50) == 20 || y.abs_diff(40) == 10);
        let check = Check::of(&frame, (50, 40));
        assert_eq!(check.ends.len(), 144);
        let [left, right] = [0, 1].map(|at| (check.ends[at].x, check.ends[at].y));
        assert_eq!((left, right), ((30.0, 40.0), (70.0, 40.0)));
        // At 90 degrees the walk to the left goes up.
        let [up, down] = [36, 37].map(|at| (check.ends[at].x, check.ends[at].y));
        assert_eq!((up, down), ((50.0, 30.0), (50.0, 50.0)));
        // 20 steps and 19; 10 and 9.
        assert_eq!(check.shortest, 9);
        assert!(check.longest >= 19);
    }

    /// To the left a walk ends at column 0 of the row that it is turned from; to the right past the last word.
    #[test]
    fn walks_end_where_the_image_does() {
        let white = image(64, 40, |x, y| (x, y) == (63, 20));
        let check = Check::of(&white, (30, 20));
        assert_eq!((check.ends[0].x, check.ends[0].y), (0.0, 20.0));
        assert_eq!((check.ends[1].x, check.ends[1].y), (63.0, 20.0));
        assert_eq!((check.ends[37].x, check.ends[37].y), (30.0, 40.0));
        assert!(check.passes(check.ends[0]) && !check.passes(Point { x: 0.0, y: 99.0 }));
    }

    /// Halves and passing points are those of the judge's second reading, and the proved search has outcome 3 just where they say so.
    #[test]
    fn the_judge_sees_the_same() {
        let mut seen = [0; 2];
        for seed in 0..200 {
            let file = generate::ellipse(seed).file();
            let image = Image::of_file(&file).expect("a crop");
            let run = run::search(&file, true).expect("a known answer");
            for record in &run.seen.records {
                let centre = (record.x, record.y);
                let check = Check::of(&image, centre);
                let judged = ellipse_widths(image.words(), image.width, image.height, centre);
                let halves = (judged.longest / 2, judged.shortest / 2);
                assert_eq!((check.longest, check.shortest), halves, "seed {seed}");
                assert_eq!(check.passing(), judged.good as usize, "seed {seed}");
                let ellipse = judged.verdict() == EllipseVerdict::Ellipse;
                assert_eq!(record.outcome == Outcome::Ellipse, ellipse, "seed {seed}");
                seen[usize::from(ellipse)] += 1;
            }
        }
        assert!(seen.iter().all(|&count| count > 5), "{seen:?}");
    }
}
