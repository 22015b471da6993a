//! `bullseye view`: a crop and what the search found in it, as a picture.
use super::{Command, Searched, ellipse_help};
use crate::{
    arguments,
    ellipse::Check,
    image::Image,
    output::{Problem, deliver, of_file, with_ellipse},
    redacting::{black_pixels, redaction},
    run::Run,
    svg::{Bounds, FONT, escaped, runs},
};
use bullseye::redact::Extent;
use crops::{Outcome, Record};
use std::{
    ffi::{OsStr, OsString},
    path::Path,
};

mod checked;

pub const COMMAND: Command = Command {
    name: "view",
    what: "a crop and what the search found in it, as a picture (SVG)",
    help: concat!(
        "\
Usage: bullseye view [--ellipse] [--redacted [--least]] CROP [-o FILE]

Searches the crop, with room for 400 records, and writes an SVG, which any browser shows: the pixels; in blue, those that the
search read; for each kept record its circle, its box and its rank, green when turned, orange when there is no turn, red when the
centre was lost; an arrow from the centre to the symbol's top; and below, a line for each record with outcome, degrees and class,
which is 4 without a turn.
A box is drawn as its record has it: where a turned corner would lie left of the crop or above it, the box is skewed.
An ellipse has no box. In purple is drawn what the check saw: the end points of its walks, a dot where one passes and a cross where not,
and the ellipse of the two halves with its half axes, all cut off where the crop ends.

",
        ellipse_help!(),
        "\
--redacted  shows the redacted crop (see redact), and in grey what was taken away, instead of what was read
--least     the redaction spares nothing
CROP is a crop file; - is standard input.
-o FILE  writes there instead of to standard output

Exit status: 0 written; 1 the crop is refused, or a file cannot be read or written; 2 bad usage.

Example: bullseye view examples/parcel.crop -o parcel.svg
"
    ),
    run,
};

/// About so many units of the screen for the longer side.
const SCREEN: u32 = 900;

/// Degrees from one rank's place at its circle to the next one's, so that ranks of near circles stand side by side.
const RANK_STEP: f64 = 30.0;

/// An arrow's length, in radii.
const ARROW_RADII: f64 = 2.0;

fn run(args: &[OsString]) -> Result<bool, Problem> {
    let takes = ["-o", "--redacted", "--least", "--ellipse"];
    let (path, options) = arguments::one(args, &takes)?;
    if options.least && !options.redacted {
        return Err(Problem::Usage("--least is for --redacted".into()));
    }
    let crop = Searched::of(&path, options.ellipse)?;
    let left = match options.redacted {
        false => None,
        true => Some(redacted(&path, &crop, options.extent())?),
    };
    let name = Path::new(&path).display().to_string();
    let picture = picture(&name, &crop, left.as_ref());
    deliver(picture.as_bytes(), options.output.as_deref())?;
    Ok(true)
}

/// The redacted crop's image.
fn redacted(path: &OsStr, crop: &Searched, extent: Extent) -> Result<Image, Problem> {
    let failed = |reason: String| Problem::Failed(of_file(path, &reason));
    let redacted = redaction(crop, extent).map_err(|unknown| failed(unknown.to_string()))?;
    match redacted.difference {
        None => Image::of_file(&redacted.file).map_err(failed),
        Some(what) => Err(failed(format!("redacted, it differs in {what}"))),
    }
}

/// The whole picture, of a redaction where one is given; a unit is a pixel of the crop, shown `zoom` units of the screen wide.
fn picture(name: &str, Searched { image, run }: &Searched, left: Option<&Image>) -> String {
    let zoom = (SCREEN / image.width.max(image.height)).max(1).into();
    let mut bounds = Bounds::of(image);
    let mut records = String::new();
    let (pixels, words) = pixels(image, run, left);
    let mut legend = caption(name, image, run, &words);
    for (rank, record) in (1..).zip(&run.seen.records) {
        let ellipse = record.outcome == Outcome::Ellipse;
        let check = ellipse.then(|| Check::of(image, (record.x, record.y)));
        let label = label(rank, record, check.as_ref());
        include(
            &mut bounds,
            record,
            rank_place(rank, record, FONT / zoom),
            FONT / zoom,
        );
        let shape = match &check {
            None => polygon(record),
            Some(check) => checked::drawn(rank, check, image, zoom),
        };
        // The best stands last, and so on top.
        records.insert_str(0, &drawn(rank, record, &shape, &label, zoom));
        legend.push((colour(record.outcome), label));
    }
    let (width, height) = (image.width, image.height);
    let text = bounds.legend(&legend, zoom);
    let start = bounds.start(zoom, FONT / zoom);
    format!(
        "{start}<title>{}</title>\n{ARROW}\
<rect class=\"page\" width=\"{width}\" height=\"{height}\" fill=\"#fff\"/>\n{}{pixels}{records}{text}</svg>\n",
        escaped(name),
        frame(image, 1.0 / zoom)
    )
}

/// The black pixels, and over them in blue those that were read; of a redaction those that are left, and in grey those that are not.
/// Then what the second colour says, in words.
fn pixels(image: &Image, run: &Run, left: Option<&Image>) -> (String, String) {
    let black = left.unwrap_or(image);
    let gone = |x: u32, y: u32| image.is_black(x, y) && !black.is_black(x, y);
    let path = |class: &str, fill: &str, pixels: String| {
        format!(
            "<path class=\"{class}\" fill=\"{fill}\" shape-rendering=\"crispEdges\" d=\"{pixels}\"/>\n"
        )
    };
    let below = path("pixels", "#000", runs(image, |x, y| black.is_black(x, y)));
    let (above, words) = match left {
        None => {
            let fill = "#2a7fff\" fill-opacity=\"0.4";
            let read = path("read", fill, runs(image, |x, y| run.has_read(x, y)));
            (read, "blue: pixels that were read".into())
        }
        Some(left) => {
            let away = black_pixels(image) - black_pixels(left);
            let words = format!(
                "grey: {away} of {} black pixels, taken away",
                black_pixels(image)
            );
            (path("gone", "#bbb", runs(image, gone)), words)
        }
    };
    (below + &above, words)
}

/// A line about the crop, just outside its pixels.
fn frame(image: &Image, line: f64) -> String {
    let [width, height] = [image.width, image.height].map(|side| f64::from(side) + line);
    let start = -line / 2.0;
    format!(
        "<rect x=\"{start:.3}\" y=\"{start:.3}\" width=\"{width:.3}\" height=\"{height:.3}\" fill=\"none\" stroke=\"#999\" \
stroke-width=\"{line:.3}\"/>\n"
    )
}

/// The head of the line for a turn.
const ARROW: &str = "\
<defs><marker id=\"arrow\" viewBox=\"0 0 8 8\" refX=\"7\" refY=\"4\" markerWidth=\"6\" markerHeight=\"6\" orient=\"auto\">\
<path d=\"M0 0L8 4L0 8z\" fill=\"#008a3c\"/></marker></defs>\n";

fn colour(outcome: Outcome) -> &'static str {
    match outcome {
        Outcome::Turned => "#008a3c",
        Outcome::NoTurn => "#b35900",
        Outcome::LostCentre => "#d0021b",
        Outcome::Ellipse => "#c026d3",
    }
}

/// Rank, outcome with its degrees, and class; then where it is, and what the check of an ellipse saw.
fn label(rank: usize, record: &Record, check: Option<&Check>) -> String {
    let degrees = match record.outcome {
        Outcome::Turned => format!(" {}°", record.rotation),
        _ => String::new(),
    };
    let seen = check.map(|check| {
        let (longest, shortest) = (check.longest, check.shortest);
        let (passing, all) = (check.passing(), check.ends.len());
        format!("; halves {longest} and {shortest}, {passing} of {all} end points pass")
    });
    format!(
        "{rank}: {}{degrees}, class {}; centre {} {}, radius {}{}",
        record.outcome.words(),
        record.class,
        record.x,
        record.y,
        record.radius,
        seen.unwrap_or_default()
    )
}

/// The lines above those of the records.
fn caption(name: &str, image: &Image, run: &Run, words: &str) -> Vec<(&'static str, String)> {
    let report = run.seen.report;
    let answer = format!(
        "answer {} {}",
        run.seen.answer.number, run.seen.answer.meaning
    );
    let counts = format!(
        "found {}, kept {}, marked {} ({words}){}",
        report.found,
        report.kept,
        report.marked,
        with_ellipse(run.ellipse)
    );
    let size = format!("{name}: {} by {} pixels", image.width, image.height);
    [size, answer, counts].map(|line| ("#000", line)).into()
}

/// A record's box.
fn polygon(record: &Record) -> String {
    let [left_bottom, left_top, right_bottom, right_top] = record.corners;
    let corners: Vec<String> = [left_bottom, left_top, right_top, right_bottom]
        .iter()
        .map(|corner| format!("{:.2},{:.2}", corner.x, corner.y))
        .collect();
    format!("<polygon points=\"{}\"/>\n", corners.join(" "))
}

/// A record's circle, its box or what stands for it, turn and rank; its points are in the middle of their pixels.
fn drawn(rank: usize, record: &Record, shape: &str, label: &str, zoom: f64) -> String {
    let Record { x, y, radius, .. } = *record;
    let (stroke, font, halo) = (2.0 / zoom, FONT / zoom, 4.0 / zoom);
    let colour = colour(record.outcome);
    let (rank_x, rank_y) = rank_place(rank, record, font);
    format!(
        "<g class=\"record\" transform=\"translate(0.5 0.5)\" fill=\"none\" stroke=\"{colour}\" stroke-width=\"{stroke:.3}\">\
<title>{label}</title>\n\
<circle cx=\"{x}\" cy=\"{y}\" r=\"{radius}\"/>\n{shape}{}\
<text x=\"{rank_x:.2}\" y=\"{rank_y:.2}\" text-anchor=\"middle\" font-weight=\"bold\" fill=\"{colour}\" stroke=\"#fff\" \
stroke-width=\"{halo:.3}\" paint-order=\"stroke\">{rank}</text>\n</g>\n",
        centre(record),
    )
}

/// Where a rank's text stands about its circle: the first to the right of it, the next ones clockwise.
fn rank_place(rank: usize, record: &Record, font: f64) -> (f64, f64) {
    let turn = (rank - 1) as f64 * RANK_STEP;
    let (sine, cosine) = turn.to_radians().sin_cos();
    let away = f64::from(record.radius) + font;
    let (x, y) = (f64::from(record.x), f64::from(record.y));
    (x + away * cosine, y + away * sine + font / 3.0)
}

/// The tip of a turn's arrow, which points from the corrected centre to the symbol's first row.
fn tip(record: &Record) -> (f64, f64) {
    let (x, y) = record.centre;
    let (sine, cosine) = f64::from(record.rotation).to_radians().sin_cos();
    let length = ARROW_RADII * f64::from(record.radius);
    (f64::from(x) + length * sine, f64::from(y) - length * cosine)
}

/// The arrow of a turn; a cross where a lost centre was last.
fn centre(record: &Record) -> String {
    let (x, y) = record.centre;
    match record.outcome {
        Outcome::Turned => {
            let (tip_x, tip_y) = tip(record);
            format!(
                "<line x1=\"{x}\" y1=\"{y}\" x2=\"{tip_x:.2}\" y2=\"{tip_y:.2}\" marker-end=\"url(#arrow)\"/>\n"
            )
        }
        Outcome::NoTurn | Outcome::Ellipse => String::new(),
        Outcome::LostCentre => format!("<path d=\"M{x} {y}m-2 -2l4 4m0 -4l-4 4\"/>\n"),
    }
}

/// Makes room for a record's circle, box and arrow, and for its rank of this font at its place; an ellipse has no box.
fn include(bounds: &mut Bounds, record: &Record, (rank_x, rank_y): (f64, f64), font: f64) {
    bounds.reach(rank_x - font, rank_y - font);
    bounds.reach(rank_x + font, rank_y);
    let (x, y) = (f64::from(record.x), f64::from(record.y));
    let radius = f64::from(record.radius);
    bounds.reach(x - radius, y - radius);
    bounds.reach(x + radius, y + radius);
    if record.outcome != Outcome::Ellipse {
        for corner in record.corners {
            bounds.reach(f64::from(corner.x), f64::from(corner.y));
        }
    }
    if record.outcome == Outcome::Turned {
        let (x, y) = tip(record);
        bounds.reach(x, y);
    }
}
