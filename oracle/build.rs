//! Prepares the source's text for the harness: exact replacements, each counted, written to `OUT_DIR`.
//!
//! | File      | Replacement                             | Why                                              |
//! |-----------|-----------------------------------------|--------------------------------------------------|
//! | bits      | field `marks`, in struct and makers     | logged reads: where the marks are held           |
//! | bits      | a mark before each look at a stored bit | logged reads: in `get` and in `try_get`          |
//! | detector  | `to_radians` by a table look-up         | the table of sines; cosine is the sine 90° on    |
//! | detector  | `powf(2.0)` by a product                | the square as a product: deviation, ellipse      |
//! | detector  | the feature's two attributes            | the ellipse check is compiled in                 |
//! | detector  | a test before the ellipse check         | it runs when the call's option is on, else not   |
//! | detector  | field `trace` in struct and maker       | lost centre: which scale, which outcome          |
//! | detector  | a test after the centre's correction    | lost centre: the scale ends, centre put back     |
//! | detector  | a test before each scale                | lost centre: no more scales                      |
//! | detector  | a note when a turn is taken             | tells a turn of 0 degrees from no turn           |
//! | detector  | parameter `capacity` and a test on it   | capacity: the sweep stops one candidate above    |
//! | detector  | `detect` takes the sweep, returns what  | mechanical: its retain and sort are used; the    |
//! |           | its sort leaves, and ends there         | rest needs the grid sampler and is compiled out  |
//! | detector  | two names of the grid sampler's         | mechanical: only the compiled-out half uses them |
//! | detector  | inner attribute, dangling attribute     | mechanical: neither may stand in an include      |
//! | both      | `crate::` by a path of `super::`        | mechanical: the crate's root is a module here    |
//! | point     | its one line that names the crate       | mechanical: the including module has that line   |

use std::env;
use std::fs;
use std::path::{Path, PathBuf};

/// A needle, how often it must occur, and what takes its place.
type Replacement = (&'static str, usize, &'static str);

/// A file of the source, the name of its prepared text, and its replacements.
type Prepared = (&'static str, &'static str, &'static [Replacement]);

/// Where the source lies, seen from the package, unless `ORACLE_SOURCE` names another folder.
const DEFAULT_FOLDER: &str = "../../shared/docs/src";

/// The files that are compiled.
const PREPARED: [Prepared; 3] = [
    ("src--src--common--bit_matrix.rs.txt", "bit_matrix.rs", BITS),
    ("src--src--rxing_result_point.rs.txt", "point.rs", POINT),
    (
        "src--src--maxicode--detector.rs.txt",
        "detector.rs",
        DETECTOR,
    ),
];

/// The file that gives only the symbol's columns and rows, which are checked against the harness's own.
const READER: &str = "src--src--maxicode--maxi_code_reader.rs.txt";

const BITS: &[Replacement] = &[
    ("crate::", 2, "super::super::"),
    (
        "pub struct BitMatrix {",
        1,
        "pub struct BitMatrix {\n    marks: Marks,",
    ),
    (
        "row_size: (width",
        1,
        "marks: Marks::none(),\n            row_size: (width",
    ),
    (
        "row_size: rowSize,",
        1,
        "marks: Marks::none(),\n            row_size: rowSize,",
    ),
    (
        "else {\n            ((self",
        1,
        "else {\n            self.marks.set(offset, x);\n            ((self",
    ),
    (
        "Some(((self",
        1,
        "self.marks.set(offset, x);\n            Some(((self",
    ),
];

const POINT: &[Replacement] = &[("use crate::ResultPoint;", 1, "")];

const DETECTOR: &[Replacement] = &[
    ("crate::", 2, "super::super::"),
    ("#![allow(dead_code)]", 1, ""),
    ("#[cfg(feature = \"image\")]", 1, ""),
    ("DefaultGridSampler, ", 1, ""),
    ("GridSampler, Quadrilateral, ", 1, ""),
    ("angle.to_radians()", 1, "Turn::of(angle)"),
    ("_mean).powf(2.0)", 2, "_mean).square()"),
    ("f64).powf(2.0)", 4, "f64).square()"),
    ("#[cfg(feature = \"experimental_features\")]", 2, ""),
    (
        "circle.detect_ellipse();",
        1,
        "if circle.trace.ellipse {
        circle.detect_ellipse()
    } else {
        Default::default()
    };",
    ),
    (
        "struct Circle<'a> {",
        1,
        "struct Circle<'a> {\n    trace: Trace,",
    ),
    (
        "push(Circle {",
        1,
        "push(Circle {\n                        trace: Trace::default(),",
    ),
    (
        "circle.calculate_high_accuracy_center();",
        1,
        "let inside = circle.center;
    circle.trace.scale += 1;
    circle.calculate_high_accuracy_center();
    if circle.center.x >= image.getWidth() || circle.center.y >= image.getHeight() {
        circle.trace.outcome = LOST;
        circle.center = inside;
        return None;
    }",
    ),
    (
        "in ACCEPTED_SCALES {",
        1,
        "in ACCEPTED_SCALES {\n        if circle.trace.outcome == LOST {\n            break;\n        }",
    ),
    (
        "(result_box, final_rotation) =",
        1,
        "circle.trace.outcome = TURNED;\n            (result_box, final_rotation) =",
    ),
    (
        "circles(image: &BitMatrix",
        1,
        "circles(image: &BitMatrix, capacity: usize",
    ),
    (
        "current_column = center + radius;",
        1,
        "if bullseyes.len() > capacity {
                        return Some(bullseyes);
                    }
                    current_column = center + radius;",
    ),
    (
        "image: &BitMatrix, try_harder: bool",
        1,
        "sweep: Option<Vec<Circle<'_>>>",
    ),
    (
        "Result<MaxicodeDetectionResult>",
        1,
        "Result<Vec<Circle<'_>>>",
    ),
    ("find_concentric_circles(image)", 1, "sweep"),
    (
        "sort_by(compare_circle);",
        1,
        "sort_by(compare_circle);\n    Ok(circles)\n}\n\n#[cfg(any())]\nfn sampling_half() {",
    ),
];

/// Features that the prepared text names; none is on.
const FEATURES: &str = r#""image", "serde", "svg_write""#;

/// Not replaced, only counted: the two constants that the harness states itself.
const READER_FACTS: [(&str, usize); 2] = [
    ("MATRIX_WIDTH: u32 = 30;", 1),
    ("MATRIX_HEIGHT: u32 = 33;", 1),
];

fn main() {
    println!("cargo::rustc-check-cfg=cfg(source)");
    println!("cargo::rustc-check-cfg=cfg(feature, values({FEATURES}))");
    println!("cargo::rerun-if-changed=build.rs");
    println!("cargo::rerun-if-env-changed=ORACLE_SOURCE");
    let folder = folder();
    println!("cargo::rerun-if-changed={}", folder.display());
    if !folder.is_dir() {
        println!(
            "cargo::warning=no source in {}: the harness is left out (ORACLE_SOURCE names another folder)",
            folder.display()
        );
        return;
    }
    let out = PathBuf::from(env::var_os("OUT_DIR").expect("cargo sets OUT_DIR"));
    for (file, name, replacements) in PREPARED {
        let text = prepare(file, read(&folder, file), replacements);
        fs::write(out.join(name), text).expect("OUT_DIR can be written");
    }
    let reader = read(&folder, READER);
    for (needle, count) in READER_FACTS {
        assert_count(READER, &reader, needle, count);
    }
    println!("cargo::rustc-cfg=source");
}

/// The folder of the source: the environment's, else the default beside the repository.
fn folder() -> PathBuf {
    match env::var_os("ORACLE_SOURCE") {
        Some(folder) => PathBuf::from(folder),
        None => {
            let package = env::var_os("CARGO_MANIFEST_DIR").expect("cargo names the package");
            Path::new(&package).join(DEFAULT_FOLDER)
        }
    }
}

/// A file's text; a folder that lacks the file is an error, since it is not the source.
fn read(folder: &Path, file: &str) -> String {
    let path = folder.join(file);
    println!("cargo::rerun-if-changed={}", path.display());
    fs::read_to_string(&path).unwrap_or_else(|error| panic!("{}: {error}", path.display()))
}

/// Applies the replacements in order, each to all its occurrences.
fn prepare(file: &str, mut text: String, replacements: &[Replacement]) -> String {
    for &(needle, count, instead) in replacements {
        assert_count(file, &text, needle, count);
        text = text.replace(needle, instead);
    }
    text
}

/// Stops the build if the text is not the one that the replacements were written for.
fn assert_count(file: &str, text: &str, needle: &str, count: usize) {
    let found = text.matches(needle).count();
    assert_eq!(
        found, count,
        "{file}: {needle:?} occurs {found} times, not {count}"
    );
}
