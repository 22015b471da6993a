//! The option `--ellipse` of the commands that search.
use super::*;

/// A bull's-eye with a disc of 160 by 72 pixels and pointed rings; of the outer ones only what crosses its row and its column is left, so
/// that it is found in few rows. Distances are told by square roots, which are the same on every machine.
fn stretched() -> Vec<u8> {
    let (width, height) = (244, 120);
    // Powers of 5/4 of distances are compared: that at which each ring begins, and a pixel's.
    let power = |distance: f64| distance * distance.sqrt().sqrt();
    let starts = [0, 1, 2, 3, 4, 5].map(|ring| power(1.0 + f64::from(ring) / 12.0));
    let mut words = vec![0; crops::image_words(width, height)];
    for (x, y) in (0..height).flat_map(|y| (0..width).map(move |x| (x, y))) {
        let across = (f64::from(x) - 122.5).abs();
        let down = (f64::from(y) - 60.0).abs();
        let distance = power(across / 80.0) + power(down / 36.0);
        let ring = starts.iter().filter(|&&start| start <= distance).count();
        let whole = ring == 1 || across < 6.0 || down < 4.0;
        if whole && ring % 2 == 1 {
            crops::set_pixel(&mut words, width, x, y);
        }
    }
    crops::pack(&words, width, height)
}

/// With EXAMPLES=write in the environment the example is written.
#[test]
fn the_example_is_a_stretched_eye() {
    let path = Path::new(env!("CARGO_MANIFEST_DIR")).join("../examples/ellipse.crop");
    if env::var_os("EXAMPLES").is_some_and(|what| what == "write") {
        fs::write(&path, stretched()).expect("it can be written");
    }
    assert!(ellipse() == stretched(), "{}", path.display());
    let outcome = |ellipse_check: bool| judged_with(&ellipse(), ellipse_check).1[26];
    assert_ne!(outcome(false), 3);
    assert_eq!(outcome(true), 3);
}

/// The folder with the example, and the parcel.
fn folder(name: &str) -> Folder {
    let folder = Folder::new(name);
    folder.write("eye", &ellipse());
    folder.write("parcel", &parcel());
    folder
}

#[test]
fn lines_of_the_judge() {
    let folder = folder("ellipse-find");
    for (name, file) in [("eye", ellipse()), ("parcel", parcel())] {
        for (args, check) in [(&["find"][..], false), (&["find", "--ellipse"], true)] {
            let ran = folder.bullseye(&[args, &[name]].concat());
            let (report, records, _) = judged_with(&file, check);
            assert_eq!(ran.out, bullseye::lines(report, &records), "{name}");
            assert_eq!(ran.code, Some(0));
        }
    }
}

/// An ellipse ends with the class, the variance and eight zeros.
#[test]
fn an_ellipse_has_zeros_for_a_box() {
    let folder = folder("ellipse-zeros");
    let text = folder.bullseye(&["find", "--ellipse", "eye"]).text();
    let first = text.lines().nth(1).expect("a record");
    let words: Vec<&str> = first.split(' ').collect();
    assert_eq!(words[3..7], ["3", "0", "0", "4"]);
    assert_eq!(words[8..], ["00000000"; 8]);
}

#[test]
fn tables_tell_how_they_were_made() {
    let folder = folder("ellipse-table");
    let table = |args: &[&str]| {
        let args = [&["table"], args, &["eye", "parcel", "none"]].concat();
        folder.bullseye(&args).text()
    };
    let (without, with) = (table(&[]), table(&["--ellipse"]));
    let ends = |text: &str, end: &str| text.lines().filter(|line| line.ends_with(end)).count();
    assert_eq!(ends(&with, ",1"), with.lines().count() - 1);
    assert!(
        with.lines()
            .next()
            .is_some_and(|line| line.ends_with(",problem,ellipse"))
    );
    assert!(!without.contains("ellipse"));
    let json = table(&["--ellipse", "--json"]);
    assert_eq!(ends(&json, ",\"ellipse\":1}"), json.lines().count());
    assert_eq!(json.lines().count(), with.lines().count() - 1);
    folder.write("without.csv", without.as_bytes());
    folder.write("with.csv", with.as_bytes());
    // A summary of the table is that of the files.
    let of_table = folder.bullseye(&["summary", "--table", "with.csv"]);
    let of_files = folder.bullseye(&["summary", "--ellipse", "eye", "parcel", "none"]);
    assert_eq!(of_table.text(), of_files.text());
    assert!(of_table.text().contains("\n  3 ellipse "));
}

#[test]
fn tables_of_both_settings_are_told_apart() {
    let folder = folder("ellipse-both");
    folder.bullseye(&["table", "eye", "-o", "without.csv"]);
    folder.bullseye(&["table", "--ellipse", "eye", "-o", "with.csv"]);
    let compared = |old: &str, new: &str| folder.bullseye(&["compare", old, new]);
    let line = "The new table was made with --ellipse, the old one without.\n";
    let there = compared("without.csv", "with.csv");
    assert!(there.text().starts_with(line), "{}", there.text());
    assert!(there.text().contains(" -> ellipse"), "{}", there.text());
    assert_eq!(there.code, Some(1));
    let line = "The old table was made with --ellipse, the new one without.\n";
    assert!(compared("with.csv", "without.csv").text().starts_with(line));
    let same = compared("with.csv", "with.csv");
    assert!(same.code == Some(0) && same.text().starts_with("Crops "));
    let both = "a table made with --ellipse beside one made without\n";
    let ran = folder.bullseye(&["summary", "--table", "with.csv", "without.csv"]);
    let complaint = format!("bullseye: without.csv: {both}");
    assert_eq!((ran.code, ran.err), (Some(2), complaint));
    let (with, without) = (folder.read("with.csv"), folder.read("without.csv"));
    folder.write("joined.csv", &[&with[..], &without].concat());
    let ran = folder.bullseye(&["summary", "--table", "joined.csv"]);
    assert!(ran.err.starts_with("bullseye: joined.csv: line ") && ran.err.ends_with(both));
    let unheaded = without.splitn(2, |&byte| byte == b'\n').nth(1);
    folder.write(
        "joined.csv",
        &[&with[..], unheaded.expect("lines")].concat(),
    );
    let ran = folder.bullseye(&["summary", "--table", "joined.csv"]);
    assert!(ran.err.ends_with(": ellipse is not 1\n"), "{}", ran.err);
}

#[test]
fn a_certificate_says_that_the_check_was_on() {
    let folder = folder("ellipse-certify");
    for args in [&["certify"][..], &["certify", "--redacted"]] {
        let on = folder.bullseye(&[args, &["--ellipse", "eye"]].concat());
        assert_eq!((on.code, on.err.as_str()), (Some(0), ""));
        let off = folder.bullseye(&[args, &["eye"]].concat()).text();
        let line = "\nellipse check: on\n";
        assert_eq!(
            (on.text().matches(line).count(), off.contains(line)),
            (1, false)
        );
        assert!(on.text().contains("\n  OUTCOME: 3\n") && !off.contains("\n  OUTCOME: 3\n"));
        for text in [on.text(), off] {
            folder.write("certificate", text.as_bytes());
            let ran = folder.bullseye(&["certify", "--check", "certificate"]);
            assert_eq!(ran.text(), "certificate: all agree\n", "{}", ran.err);
        }
        let silent = on.text().replacen(line, "\n", 1);
        folder.write("certificate", silent.as_bytes());
        let ran = folder.bullseye(&["certify", "--check", "certificate"]);
        assert_eq!(ran.code, Some(1), "{}", ran.text());
    }
}

/// A crop is blanked or redacted with the check, and agrees with the check.
#[test]
fn searches_before_and_after_have_one_setting() {
    let folder = folder("ellipse-after");
    for (args, name) in [
        (&["blank"][..], "blanked"),
        (&["redact"], "redacted"),
        (&["redact", "--least"], "least"),
    ] {
        let ran = folder.bullseye(&[args, &["--ellipse", "eye", "-o", name]].concat());
        assert_eq!(ran.code, Some(0), "{}", ran.err);
        assert!(ran.err.ends_with(", with --ellipse\n"), "{}", ran.err);
        let (before, after) = (
            judged_with(&ellipse(), true),
            judged_with(&folder.read(name), true),
        );
        assert_eq!((after.0.found, after.1), (before.0.found, before.1));
        let ran = folder.bullseye(&["redact", "--ellipse", "--check", "eye", name]);
        assert_eq!(ran.code, Some(0), "{}", ran.text());
        assert!(ran.text().ends_with(", with --ellipse\n"));
        let args = [args, &["--ellipse", "eye", "parcel", "-o", "out"]].concat();
        let ran = folder.bullseye(&args);
        assert_eq!(ran.code, Some(0), "{}", ran.err);
        assert_eq!(ran.text().matches(", with --ellipse\n").count(), 2);
        assert_eq!(folder.read("out/eye"), folder.read(name));
        fs::remove_dir_all(folder.0.join("out")).expect("it is there");
    }
    let ran = folder.bullseye(&["redact", "--check", "eye", "least"]);
    assert_eq!(ran.code, Some(1), "{}", ran.text());
}

#[test]
fn bad_usage() {
    let folder = folder("ellipse-usage");
    for args in [
        &["summary", "--ellipse", "--table", "t.csv"][..],
        &["certify", "--ellipse", "--check", "certificate"],
        &["compare", "--ellipse", "a", "b"],
        &["check", "--ellipse", "eye"],
        &["cells", "--ellipse", "eye"],
        &["cases", "--ellipse", "crops", "cases"],
    ] {
        let ran = folder.bullseye(args);
        assert_eq!((ran.code, ran.text().as_str()), (Some(2), ""), "{args:?}");
    }
}
