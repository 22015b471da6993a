//! `bullseye view`.
use super::*;

/// The value of an attribute in an element.
pub fn value<'a>(element: &'a str, name: &str) -> &'a str {
    let start = format!(" {name}=\"");
    let after = element
        .split_once(&start)
        .unwrap_or_else(|| panic!("{name} in {element}"));
    after.1.split('"').next().expect("it ends")
}

/// All elements with this name and start.
pub fn elements<'a>(svg: &'a str, start: &str) -> Vec<&'a str> {
    let parts = svg.split('<').filter(|part| part.starts_with(start));
    parts.collect()
}

/// How many pixels a path of runs covers; each is within the image, and no two overlap.
fn covered(path: &str, width: usize, height: usize) -> Vec<bool> {
    let mut pixels = vec![false; width * height];
    for run in path.split_terminator('z') {
        let (place, rest) = run
            .strip_prefix('M')
            .expect("a run begins")
            .split_once('h')
            .expect("it is flat");
        let (x, y) = place.split_once(' ').expect("it has a place");
        let (x, y): (usize, usize) = (x.parse().expect("x"), y.parse().expect("y"));
        let length: usize = rest
            .split_once('v')
            .expect("it is a row high")
            .0
            .parse()
            .expect("length");
        assert_eq!(rest, format!("{length}v1h-{length}"));
        for pixel in &mut pixels[y * width + x..][..length] {
            assert!(x + length <= width && !*pixel);
            *pixel = true;
        }
    }
    pixels
}

/// Every element that begins ends, in order.
pub fn well_formed(svg: &str) {
    let mut open = Vec::new();
    for part in svg.split('<').skip(1) {
        let (tag, text) = part.split_once('>').expect("a tag ends");
        assert!(!text.contains('&') || text.contains("&amp;") || text.contains("&lt;"));
        assert_eq!(tag.matches('"').count() % 2, 0, "{tag}");
        let name = tag.split([' ', '/']).next().expect("it has a name");
        match tag.strip_prefix('/') {
            Some(end) => assert_eq!(open.pop(), Some(end)),
            None if tag.ends_with('/') => (),
            None => open.push(name),
        }
    }
    assert!(open.is_empty(), "{open:?}");
}

/// Holds a picture against the judge's words, with the ellipse check or without.
fn compare(name: &str, file: &[u8], svg: &str, ellipse: bool) {
    well_formed(svg);
    let (width, height, black) = pixels(file);
    let paths = elements(svg, "path class=");
    let path = |class: &str| {
        let path = paths.iter().find(|path| value(path, "class") == class);
        covered(value(path.expect("it is there"), "d"), width, height)
    };
    assert_eq!(path("pixels"), black, "{name}");
    let (report, records, marks) = judged_with(file, ellipse);
    let row = width.div_ceil(64);
    let read = |i: usize| marks[i / width * row + i % width / 64] >> (i % width % 64) & 1 != 0;
    let read: Vec<bool> = (0..width * height).map(read).collect();
    assert_eq!(path("read"), read, "{name}");
    let kept: Vec<&[u32]> = records
        .chunks_exact(40)
        .take(report.kept as usize)
        .collect();
    let turned = kept.iter().filter(|record| record[26] == 1).count();
    assert_eq!(elements(svg, "line ").len(), turned, "{name}");
    let shapes = records_drawn(svg);
    assert_eq!(shapes.len(), kept.len(), "{name}");
    for (rank, (record, shape)) in (1..).zip(kept.into_iter().zip(shapes)) {
        compare_circle(record, shape);
        match record[26] {
            3 => compare_ellipse(record, shape),
            _ => compare_box(record, shape),
        }
        let label = format!(">{rank}: {}, class {};", outcome(record), record[39]);
        assert_eq!(svg.matches(&label).count(), 2, "{name}: {label}");
    }
}

/// What is drawn of each record, the best first: it is drawn last.
fn records_drawn(svg: &str) -> Vec<&str> {
    let parts = svg.split("<g class=\"record\"").skip(1);
    let mut drawn: Vec<&str> = parts.collect();
    drawn.reverse();
    drawn
}

/// The only element with this name.
fn only<'a>(svg: &'a str, name: &str) -> &'a str {
    let found = elements(svg, name);
    assert_eq!(found.len(), 1, "{name} in {svg}");
    found[0]
}

/// Holds a record's circle against its words.
fn compare_circle(record: &[u32], shape: &str) {
    let circle = only(shape, "circle");
    let words = ["cx", "cy", "r"].map(|name| value(circle, name).parse().ok());
    assert_eq!(words, [0, 1, 2].map(|at| Some(record[at])));
}

/// Holds a record's box, corner after corner going round, against its words.
fn compare_box(record: &[u32], shape: &str) {
    assert!(elements(shape, "ellipse").is_empty());
    let polygon = only(shape, "polygon");
    let corner = |at: usize| {
        let [x, y] = [record[at], record[at + 1]].map(f32::from_bits);
        format!("{x:.2},{y:.2}")
    };
    let round = [31, 33, 37, 35].map(corner).join(" ");
    assert_eq!(value(polygon, "points"), round);
}

/// An ellipse is drawn about the centre as found, with four fifths of the 144 end points passing at least, and has no box.
fn compare_ellipse(record: &[u32], shape: &str) {
    assert!(elements(shape, "polygon").is_empty());
    let ellipse = only(shape, "ellipse");
    let number = |name: &str| value(ellipse, name).parse::<u32>().expect("a number");
    assert_eq!(["cx", "cy"].map(number), [record[0], record[1]]);
    let [longest, shortest] = ["rx", "ry"].map(number);
    assert!(longest > shortest && shortest > 0);
    let path = |class: &str| only(shape, &format!("path class=\"{class}\""));
    let points = |class: &str| value(path(class), "d").matches('M').count();
    assert_eq!(points("passing") + points("failing"), 144);
    assert!(points("passing") >= 116);
    let halves = format!(
        "; halves {longest} and {shortest}, {} of 144 ",
        points("passing")
    );
    assert!(shape.contains(&halves), "{halves}");
}

/// A record's outcome in words.
fn outcome(record: &[u32]) -> String {
    match record[26] {
        0 => "no turn".into(),
        1 => format!("turned {}°", f32::from_bits(record[28])),
        3 => "ellipse".into(),
        _ => "lost centre".into(),
    }
}

/// That a point is within the picture.
pub fn inside(svg: &str, x: f64, y: f64) {
    let view = value(elements(svg, "svg")[0], "viewBox");
    let view: Vec<f64> = view.split(' ').filter_map(|n| n.parse().ok()).collect();
    let [left, top, width, height] = view[..] else {
        panic!("{view:?}");
    };
    assert!(left < x && x < left + width, "{x} in {view:?}");
    assert!(top < y && y < top + height, "{y} in {view:?}");
}

/// Everything that is drawn is within the picture.
fn within(svg: &str) {
    let inside = |x: f64, y: f64| inside(svg, x, y);
    for line in elements(svg, "line ") {
        let ends =
            ["x1", "y1", "x2", "y2"].map(|name| value(line, name).parse().expect("a number"));
        inside(ends[0], ends[1]);
        inside(ends[2], ends[3]);
    }
    for polygon in elements(svg, "polygon") {
        for point in value(polygon, "points").split(' ') {
            let (x, y) = point.split_once(',').expect("a point");
            inside(x.parse().expect("x"), y.parse().expect("y"));
        }
    }
}

#[test]
fn pictures_of_every_family() {
    let folder = Folder::new("view");
    let mut crops = of_each_family(8);
    crops.push(("parcel".into(), parcel()));
    crops.push(("white".into(), white()));
    crops.push(("ellipse".into(), ellipse()));
    crops.extend(for_ellipses(40));
    for (name, file) in crops {
        folder.write(&name, &file);
        for (args, ellipse) in [(&["view"][..], false), (&["view", "--ellipse"], true)] {
            let ran = folder.bullseye(&[args, &[&name]].concat());
            assert_eq!((ran.code, ran.err.as_str()), (Some(0), ""), "{name}");
            compare(&name, &file, &ran.text(), ellipse);
            within(&ran.text());
        }
    }
}

/// The parcel's symbol stands on its head: the arrow points down and to the right.
#[test]
fn an_arrow_to_the_symbols_top() {
    let folder = Folder::new("view-arrow");
    folder.write("parcel", &parcel());
    let ran = folder.bullseye(&["view", "parcel", "-o", "svg"]);
    assert_eq!((ran.code, ran.out.len()), (Some(0), 0));
    let svg = String::from_utf8(folder.read("svg")).expect("it is text");
    let line = elements(&svg, "line ")[0];
    let ends = ["x1", "y1", "x2", "y2"].map(|name| value(line, name));
    assert_eq!(ends, ["92", "91", "119.04", "128.21"]);
}

#[test]
fn a_name_with_marks_of_its_own() {
    let folder = Folder::new("view-name");
    folder.write("a<b>&\"c\"\n.crop", &parcel());
    let ran = folder.bullseye(&["view", "a<b>&\"c\"\n.crop"]);
    let svg = ran.text();
    assert!(svg.contains("<title>a&lt;b&gt;&amp;&quot;c&quot;\u{fffd}.crop</title>"));
    compare("named", &parcel(), &svg, false);
}

#[test]
fn a_refused_crop() {
    let folder = Folder::new("view-refused");
    let ran = folder.bullseye_reading(&["view", "-"], &[0x10, 0x20, 0x02, 0x10]);
    let complaint = "bullseye: -: refused: 2 width or height outside 33 to 2,048\n";
    assert_eq!((ran.code, ran.out.len()), (Some(1), 0));
    assert_eq!(ran.err, complaint);
}

#[test]
fn a_redaction_and_what_it_takes_away() {
    let folder = Folder::new("view-redacted");
    folder.write("crop", &parcel());
    for least in [&[][..], &["--least"]] {
        let redact = [&["redact", "crop", "-o", "redacted"], least].concat();
        assert_eq!(folder.bullseye(&redact).code, Some(0));
        let view = [&["view", "--redacted", "crop"], least].concat();
        let svg = folder.bullseye(&view).text();
        well_formed(&svg);
        let (width, height, before) = pixels(&parcel());
        let (_, _, after) = pixels(&folder.read("redacted"));
        let path = |class: &str| {
            let found = elements(&svg, &format!("path class=\"{class}\""));
            covered(value(found[0], "d"), width, height)
        };
        let gone = before.iter().zip(&after).map(|(old, new)| *old && !new);
        assert_eq!(
            (path("pixels"), path("gone")),
            (after.clone(), gone.collect())
        );
        assert!(!svg.contains("class=\"read\""));
    }
    assert_eq!(folder.bullseye(&["view", "--least", "crop"]).code, Some(2));
}
