//! `bullseye certify`.
use super::*;

/// A crop's certificate, checked.
fn certified(folder: &Folder, name: &str, file: &[u8]) -> String {
    folder.write(name, file);
    let ran = folder.bullseye(&["certify", name]);
    assert_eq!((ran.code, ran.err.as_str()), (Some(0), ""), "{name}");
    folder.write("certificate", &ran.out);
    let checked = folder.bullseye(&["certify", "--check", "certificate"]);
    assert_eq!(
        (checked.code, checked.text().as_str(), checked.err.as_str()),
        (Some(0), "certificate: all agree\n", ""),
        "{name}"
    );
    ran.text()
}

/// The value of a line of data.
fn value<'a>(text: &'a str, key: &str) -> &'a str {
    let start = format!("{key}: ");
    let found = text.lines().find_map(|line| line.strip_prefix(&start));
    found.unwrap_or_else(|| panic!("no line {key}"))
}

/// The crop file that follows a line.
fn crop_after(text: &str, title: &str) -> Vec<u8> {
    let rows = text
        .lines()
        .skip_while(|line| !line.starts_with(title))
        .skip(1);
    let rows = rows.take_while(|line| line.bytes().all(|byte| byte.is_ascii_hexdigit()));
    let digits: String = rows.collect();
    (0..digits.len())
        .step_by(2)
        .map(|at| u8::from_str_radix(&digits[at..at + 2], 16).expect("a byte"))
        .collect()
}

/// Holds a certificate against the judge's words.
fn compare(name: &str, file: &[u8], text: &str) {
    let (report, records, marks) = judged(file);
    let meaning = crops::meaning(report.answer).expect("a known answer");
    let answer = format!("{} {meaning}", report.answer);
    assert_eq!(value(text, "answer"), answer, "{name}");
    let counts = [report.found, report.kept, report.marked].map(|count| count.to_string());
    assert_eq!(
        ["found", "kept", "marked"].map(|key| value(text, key)),
        counts
    );
    let (width, height, before) = pixels(file);
    let row = width.div_ceil(64);
    let read = |i: usize| marks[i / width * row + i % width / 64] >> (i % width % 64) & 1 != 0;
    let read: Vec<bool> = (0..width * height).map(read).collect();
    let (_, _, map) = pixels(&crop_after(text, "kept pixels, "));
    assert_eq!(map, read, "{name}");
    let (_, _, blanked) = pixels(&crop_after(text, "blanked crop, "));
    assert!((0..width * height).all(|i| blanked[i] == (before[i] && read[i])));
    let kept = read.iter().filter(|&&read| read).count();
    assert_eq!(
        value(text, "kept pixels"),
        format!("{kept} of {}", width * height)
    );
    let filling = report.marked as usize - kept;
    let key = "marked bits that fill up rows";
    assert_eq!(value(text, key), filling.to_string());
    let across = |row: &&[bool]| row[6..width - 6].iter().all(|&read| read);
    let rows = read.chunks(width).filter(across).count();
    let key = "rows kept from side to side, but for 6 pixels at each";
    assert_eq!(value(text, key), format!("{rows} of {height}"));
    let others = &records[report.kept as usize * 40..];
    assert!(others.iter().all(|&word| word == 0));
    assert_eq!(value(text, "words of other records that are not 0"), "0");
    assert_eq!(words(text), records[..report.kept as usize * 40], "{name}");
}

/// All words of the records that a certificate names.
fn words(text: &str) -> Vec<u32> {
    let lines = text.lines().filter(|line| line.starts_with("  "));
    let mut words = Vec::new();
    for line in lines {
        let (_, values) = line.split_once(": ").expect("a field");
        for value in values.split(' ').filter(|value| !value.starts_with('(')) {
            let radix = if line.contains('(') { 16 } else { 10 };
            words.push(u32::from_str_radix(value, radix).expect("a word"));
        }
    }
    words
}

#[test]
fn certificates_of_every_family() {
    let folder = Folder::new("certify");
    let mut files = of_each_family(3);
    files.push(("parcel".into(), parcel()));
    files.push(("white".into(), white()));
    files.push(("crowded".into(), crowded()));
    files.push(("set aside".into(), set_aside()));
    let mut answers = Vec::new();
    for (name, file) in files {
        let text = certified(&folder, &name, &file);
        compare(&name, &file, &text);
        assert_eq!(value(&text, "name"), name);
        answers.push(judged(&file).0.answer);
    }
    for answer in [0, 7, 8, 9] {
        assert!(answers.contains(&answer), "{answer}");
    }
}

/// A certificate is the same whether its crop was blanked before or not.
#[test]
fn the_blanked_crop_has_the_same_certificate() {
    let folder = Folder::new("certify-blanked");
    let first = certified(&folder, "parcel", &parcel());
    let blanked = crop_after(&first, "blanked crop, ");
    assert_ne!(blanked, parcel());
    assert_eq!(certified(&folder, "parcel", &blanked), first);
}

/// Each name in backquotes with a file after it is declared in that file, and stands in docs/PROMISES.md.
#[test]
fn its_theorems_are_there() {
    let folder = Folder::new("certify-theorems");
    let text = certified(&folder, "parcel", &parcel());
    let repository = Path::new(env!("CARGO_MANIFEST_DIR")).join("..");
    let mut names = Vec::new();
    let parts: Vec<&str> = text.split('`').collect();
    for pair in parts.windows(2) {
        let Some((file, _)) = pair[1].strip_prefix(" (").and_then(|s| s.split_once(')')) else {
            continue;
        };
        let source = fs::read_to_string(repository.join(file)).expect("the file is there");
        let name = pair[0];
        let starts = [format!("pub {name} : "), format!("fn {name}(")];
        assert!(
            starts.iter().any(|start| source.contains(start)),
            "{name} in {file}"
        );
        names.push(name);
    }
    let promises = fs::read_to_string(repository.join("docs/PROMISES.md")).expect("the page");
    for name in ["runs_agree", "marked_when_steps_read", "file_run"] {
        assert!(names.contains(&name), "{name} in {names:?}");
        assert!(promises.contains(&format!("`{name}`")));
    }
    assert_eq!(names.len(), 8);
}

/// What `--check` says of the parcel's certificate after a change, and its exit status; each test has a folder of its own.
fn changed(folder: &str, change: impl Fn(&str) -> String) -> (Option<i32>, String) {
    let folder = Folder::new(folder);
    let text = certified(&folder, "parcel", &parcel());
    let other = change(&text);
    assert_ne!(other, text);
    folder.write("c", other.as_bytes());
    let ran = folder.bullseye(&["certify", "--check", "c"]);
    (ran.code, ran.text() + &ran.err)
}

#[test]
fn what_was_changed_is_named() {
    let cases = [
        ("kept: 1\n", "kept: 2\n", "line 28: it says `kept: 2`"),
        ("  CLASS: 2\n", "  CLASS: 1\n", "it says `  CLASS: 1`"),
        (" (11.763717)", "", "it says `  VARIANCE: 413c382f`"),
        ("of 34960\n", "of 34961\n", "`kept pixels: 16538 of 34961`"),
        ("A theorem: every", "A theorem: each", "differs in 1 line,"),
        (
            "\nend\n",
            "\nsigned\nend\n",
            "differs in 2 lines, first in ",
        ),
    ];
    for (old, new, said) in cases {
        let (code, text) = changed("certify-changed", |text| text.replacen(old, new, 1));
        assert_eq!(code, Some(1), "{text}");
        assert!(text.starts_with("c: differs in "), "{text}");
        assert!(text.contains(said), "{text}");
    }
}

/// A kind that is not known, or that of another crop, makes it no certificate.
#[test]
fn another_kind() {
    for (kind, said) in [("whole", "its kind is whole"), ("redacted", "no crop")] {
        let kind = format!("kind: {kind}\n");
        let (code, text) = changed("certify-kind", |text| {
            text.replacen("kind: blanked\n", &kind, 1)
        });
        assert_eq!(code, Some(2), "{text}");
        assert!(text.contains(said), "{text}");
    }
}

/// A pixel that was not kept made black again is seen, and so is a kept one.
#[test]
fn a_changed_pixel_is_seen() {
    let changed_row = |row: usize, from: &'static str, to: &'static str| {
        changed("certify-pixel", move |text| {
            let mut lines: Vec<String> = text.lines().map(String::from).collect();
            let crop = lines
                .iter()
                .position(|line| line.starts_with("blanked crop"));
            let line = &mut lines[crop.expect("it has a crop") + 2 + row];
            *line = line.replacen(from, to, 1);
            lines.join("\n") + "\n"
        })
    };
    let (code, text) = changed_row(0, "0", "8");
    assert_eq!(code, Some(1), "{text}");
    assert!(text.starts_with("c: differs in 1 line, "), "{text}");
    let (code, text) = changed_row(92, "f", "0");
    assert_eq!(code, Some(1), "{text}");
}

/// Another version's text for the reader is not compared, its data is.
#[test]
fn another_version() {
    let older = |text: &str| text.replacen(env!("CARGO_PKG_VERSION"), "0.0.1", 1);
    let versions = concat!(
        " (written by bullseye 0.0.1, checked by bullseye ",
        env!("CARGO_PKG_VERSION"),
        ")\n"
    );
    let words = |text: &str| older(text).replacen("A theorem: ", "", 1);
    let agree = format!("c: all agree{versions}");
    assert_eq!(changed("certify-version", words), (Some(0), agree));
    let data = |text: &str| older(text).replacen("found: 1\n", "found: 3\n", 1);
    let (code, text) = changed("certify-version", data);
    let said =
        "c: differs in 1 line, first in line 27: it says `found: 3`, the search gives `found: 1`";
    assert_eq!((code, text), (Some(1), format!("{said}{versions}")));
}

/// A certificate of a version before 0.5 has class 0 where there is no turn: both versions are named.
#[test]
fn an_earlier_class() {
    let folder = Folder::new("certify-class");
    folder.write("lost", &generated("lost", 20));
    let text = folder.bullseye(&["certify", "lost"]).text();
    let earlier = text.replacen(env!("CARGO_PKG_VERSION"), "0.4.0", 1);
    let earlier = earlier.replacen("  CLASS: 4\n", "  CLASS: 0\n", 1);
    folder.write("c", earlier.as_bytes());
    let ran = folder.bullseye(&["certify", "--check", "c"]);
    let said = "it says `  CLASS: 0`, the search gives `  CLASS: 4` (written by bullseye 0.4.0, ";
    assert!(ran.text().starts_with("c: differs in 1 line, "));
    assert!(ran.text().contains(said), "{}", ran.text());
    assert_eq!(ran.code, Some(1));
}

#[test]
fn files_that_are_no_certificate() {
    let title = "its first line is not `bullseye certificate 1`";
    let cases = [
        ("bullseye c", "c", title),
        (
            "certificate 1",
            "certificate 2",
            "its format is 2, and this program reads 1",
        ),
        (
            "product: ",
            "program: ",
            "its line `product: ..` is missing",
        ),
        ("\nname: ", "\n", "its line `name: ..` is missing"),
        ("\nend\n", "\n", "it does not end with the line `end`"),
        (
            "\n10b8",
            "\n1_b8",
            "a row of its crop is not in hexadecimal",
        ),
        ("\nblanked crop, ", "\ncrop, ", "it has no crop"),
    ];
    for (old, new, reason) in cases {
        let said = format!("bullseye: c: no certificate: {reason}\n");
        let change = |text: &str| text.replacen(old, new, 1);
        assert_eq!(changed("certify-none", change), (Some(2), said));
    }
    let folder = Folder::new("certify-bytes");
    folder.write("parcel", &parcel());
    folder.write("empty", &[]);
    for (name, reason) in [("parcel", "it is no text"), ("empty", title)] {
        let ran = folder.bullseye(&["certify", "--check", name]);
        let said = format!("bullseye: {name}: no certificate: {reason}\n");
        assert_eq!((ran.code, ran.err), (Some(2), said));
    }
}

#[test]
fn a_certificate_with_a_crop_that_is_refused() {
    let (code, text) = changed("certify-refuses", |text| {
        text.replacen("\n10b80be0\n", "\n10b80bf0\n", 1)
    });
    let said = "bullseye: c: refused: 4 length does not match the dimensions\n";
    assert_eq!((code, text.as_str()), (Some(1), said));
}

#[test]
fn bad_files_and_usage() {
    let folder = Folder::new("certify-bad");
    folder.write("long", &[white(), vec![0]].concat());
    let ran = folder.bullseye(&["certify", "long", "-o", "out"]);
    let said = "bullseye: long: refused: 4 length does not match the dimensions\n";
    assert_eq!((ran.code, ran.err.as_str()), (Some(1), said));
    assert!(!folder.0.join("out").exists());
    let ran = folder.bullseye(&["certify", "--check", "none"]);
    let said = "bullseye: none: no such file\n";
    assert_eq!((ran.code, ran.err.as_str()), (Some(1), said));
    let ran = folder.bullseye(&["certify", "--check", "long", "-o", "out"]);
    assert_eq!(ran.code, Some(2));
    assert!(
        ran.err
            .starts_with("bullseye: certify: --check writes no file for -o\n")
    );
}

/// A name cannot end its line.
#[test]
fn a_name_with_a_line_of_its_own() {
    let folder = Folder::new("certify-name");
    let text = certified(&folder, "a\nend\n.crop", &parcel());
    assert_eq!(value(&text, "name"), "a\u{fffd}end\u{fffd}.crop");
}

/// A redacted crop's certificate has that crop, the results of the crop itself, and says that it is no theorem.
#[test]
fn certificates_of_redacted_crops() {
    let folder = Folder::new("certify-redacted");
    let mut files = of_each_family(1);
    files.push(("parcel".into(), parcel()));
    for (name, file) in files {
        folder.write(&name, &file);
        let ran = folder.bullseye(&["certify", "--redacted", &name, "-o", "certificate"]);
        assert_eq!((ran.code, ran.err.as_str()), (Some(0), ""), "{name}");
        let text = String::from_utf8(folder.read("certificate")).expect("a text");
        let checked = folder.bullseye(&["certify", "--check", "certificate"]);
        assert_eq!(checked.text(), "certificate: all agree\n", "{name}");
        assert_eq!(value(&text, "kind"), "redacted");
        assert!(text.contains("# No theorem about the deleted crop"));
        folder.write("redacted", &crop_after(&text, "redacted crop, "));
        let same = folder.bullseye(&["redact", "--check", &name, "redacted"]);
        assert_eq!(same.code, Some(0), "{name}");
        let (report, records, _) = judged(&file);
        let counts = [report.found, report.kept].map(|count| count.to_string());
        assert_eq!(["found", "kept"].map(|key| value(&text, key)), counts);
        assert_eq!(words(&text), records[..report.kept as usize * 40], "{name}");
    }
}

#[test]
fn a_changed_redacted_crop_is_noticed() {
    let folder = Folder::new("certify-redacted-changed");
    folder.write("parcel", &parcel());
    let ran = folder.bullseye(&["certify", "--redacted", "--least", "parcel"]);
    let text = ran.text().replace("found: 1", "found: 2");
    folder.write("certificate", text.as_bytes());
    let checked = folder.bullseye(&["certify", "--check", "certificate"]);
    assert_eq!(checked.code, Some(1));
    let misused = [
        &["certify", "--least", "parcel"][..],
        &["certify", "--check", "--redacted", "certificate"],
    ];
    for arguments in misused {
        assert_eq!(folder.bullseye(arguments).code, Some(2), "{arguments:?}");
    }
}
