//! `bullseye redact`.
use super::*;
use std::collections::BTreeSet;

/// The black pixels of a crop.
fn black(file: &[u8]) -> usize {
    pixels(file).2.into_iter().filter(|&black| black).count()
}

/// What the judge finds, without what was read.
fn result(file: &[u8]) -> (u32, u32, u32, Vec<u32>) {
    let (report, records, _) = judged(file);
    (report.answer, report.found, report.kept, records)
}

#[test]
fn one_crop_and_its_check() {
    let folder = Folder::new("redact");
    folder.write("parcel", &parcel());
    let mut fewer = black(&parcel());
    for (args, name) in [
        (&["redact", "parcel", "-o", "out"][..], "out"),
        (&["redact", "--least", "parcel", "-o", "least"], "least"),
    ] {
        let ran = folder.bullseye(args);
        assert_eq!((ran.code, ran.out.len()), (Some(0), 0), "{}", ran.err);
        let file = folder.read(name);
        assert_eq!(result(&file), result(&parcel()));
        let start = format!("bullseye: parcel: black 6538 to {} in ", black(&file));
        assert!(ran.err.starts_with(&start), "{}", ran.err);
        let end = " searches; both give the same answer, counts and records\n";
        assert!(ran.err.ends_with(end), "{}", ran.err);
        assert!(black(&file) < fewer);
        fewer = black(&file);
        let check = folder.bullseye(&["redact", "--check", "parcel", name]);
        let line = format!("{name}: the same result and no other black; black 6538 to {fewer}\n");
        assert_eq!((check.code, check.text()), (Some(0), line));
    }
    assert!(fewer < 200, "{fewer}");
}

#[test]
fn a_check_says_what_differs() {
    let folder = Folder::new("redact-check");
    folder.write("parcel", &parcel());
    folder.write("white", &white());
    let mut all_white = parcel();
    all_white[4..].fill(0);
    folder.write("all-white", &all_white);
    let mut added = parcel();
    added[4] ^= 0x80;
    folder.write("added", &added);
    for (redacted, what) in [
        ("white", "not the same: the dimensions; black 6538 to 0"),
        (
            "all-white",
            "not the same: answer, found or kept; black 6538 to 0",
        ),
        (
            "added",
            "not the same: 1 black pixels that the crop has white; black 6538 to 6539",
        ),
    ] {
        let ran = folder.bullseye(&["redact", "--check", "parcel", redacted]);
        assert_eq!(
            (ran.code, ran.text()),
            (Some(1), format!("{redacted}: {what}\n"))
        );
    }
    let ran = folder.bullseye(&["redact", "--check", "parcel", "missing"]);
    assert_eq!(
        (ran.code, ran.err.as_str()),
        (Some(1), "bullseye: missing: no such file\n")
    );
}

#[test]
fn many_crops_into_a_folder() {
    let folder = Folder::new("redact-many");
    fs::create_dir(folder.0.join("crops")).expect("a folder is made");
    let mut all = of_each_family(2);
    all.retain(|(_, file)| judged(file).0.found < 20);
    all.push(("parcel.crop".into(), parcel()));
    all.push(("white.crop".into(), white()));
    all.sort();
    for (name, file) in &all {
        folder.write(&format!("crops/{name}"), file);
    }
    let ran = folder.bullseye(&["redact", "crops", "-o", "redacted"]);
    assert_eq!((ran.code, ran.err.as_str()), (Some(0), ""));
    let text = ran.text();
    let mut lines = text.lines();
    let mut after = 0;
    for (name, file) in &all {
        let redacted = folder.read(&format!("redacted/{name}"));
        let blacks = format!("black {} to {} in ", black(file), black(&redacted));
        let start = format!("crops/{name}: {blacks}");
        assert!(
            lines.next().is_some_and(|line| line.starts_with(&start)),
            "{start}"
        );
        assert_eq!(result(&redacted), result(file), "{name}");
        after += black(&redacted);
    }
    let before: usize = all.iter().map(|(_, file)| black(file)).sum();
    let count = all.len();
    let start = format!(
        "total {count}: agree {count}, differ 0, refused 0, not read 0, not written 0; black {before} to {after} in "
    );
    assert!(
        lines.next().is_some_and(|line| line.starts_with(&start)),
        "{start}"
    );
    assert_eq!(
        (lines.next(), black(&folder.read("redacted/white.crop"))),
        (None, 0)
    );
}

#[test]
fn refused_files_are_named_and_not_written() {
    let folder = Folder::new("redact-refused");
    let mut names = vec!["redact".to_string()];
    let mut numbers = BTreeSet::new();
    for seed in 0..100 {
        let file = oracle::generate::bad_file(seed);
        let number = bullseye::check(&file);
        if number != 0 && numbers.insert(number) {
            names.push(number.to_string());
            folder.write(&number.to_string(), &file);
        }
    }
    assert_eq!(numbers, BTreeSet::from([1, 2, 3, 4, 5]));
    folder.write("good", &white());
    names.extend(["missing", "good", "-o", "out"].map(String::from));
    let ran = folder.bullseye(&names);
    assert_eq!(ran.code, Some(1));
    let refused = numbers.len();
    let total = format!(
        "total {}: agree 1, differ 0, refused {refused}, not read 1, ",
        refused + 2
    );
    assert!(ran.text().contains(&total), "{}", ran.text());
    assert_eq!(
        ran.err.matches(": refused: ").count(),
        refused,
        "{}",
        ran.err
    );
    let written = fs::read_dir(folder.0.join("out")).expect("it is there");
    assert_eq!(written.count(), 1);
    let one = folder.bullseye(&["redact", &names[1], "-o", "one"]);
    assert_eq!((one.code, folder.0.join("one").exists()), (Some(1), false));
}

#[test]
fn a_folder_that_cannot_be_written() {
    let folder = Folder::new("redact-folder");
    folder.write("a", &white());
    folder.write("b", &white());
    folder.write("file", b"");
    let ran = folder.bullseye(&["redact", "a", "b", "-o", "file"]);
    assert_eq!((ran.code, ran.text().as_str()), (Some(1), ""));
    assert!(ran.err.starts_with("bullseye: file: "), "{}", ran.err);
    let ran = folder.bullseye(&["redact", "a", "b", "-o", "/proc/none"]);
    assert_eq!((ran.code, ran.text().as_str()), (Some(1), ""));
    assert!(ran.err.starts_with("bullseye: /proc/none: "), "{}", ran.err);
    fs::create_dir_all(folder.0.join("taken/a")).expect("a folder is made");
    let ran = folder.bullseye(&["redact", "a", "b", "-o", "taken"]);
    assert_eq!(
        (ran.code, ran.err.as_str()),
        (Some(1), "bullseye: a: taken/a: a folder, not a file\n")
    );
    assert!(
        ran.text()
            .contains("total 2: agree 1, differ 0, refused 0, not read 0, not written 1; ")
    );
}

#[test]
fn bad_usage() {
    let folder = Folder::new("redact-usage");
    folder.write("a", &white());
    for args in [
        &["redact", "--check", "a"][..],
        &["redact", "--check", "--least", "a", "a"],
        &["redact", "--check", "a", "a", "-o", "b"],
        &["redact", "a", "a"],
        &["redact", "--most", "a"],
    ] {
        let ran = folder.bullseye(args);
        assert_eq!((ran.code, ran.text().as_str()), (Some(2), ""), "{args:?}");
    }
}
