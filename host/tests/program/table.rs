//! `bullseye table`, and `bullseye summary --table`.
use super::*;
use std::{ffi::OsString, os::unix::ffi::OsStringExt};

const HEADER: &str = "file,answer,found,kept,marked,record,x,y,radius,outcome,scale,rotation,class,variance,last_x,last_y,\
left_bottom_x,left_bottom_y,left_top_x,left_top_y,right_bottom_x,right_bottom_y,right_top_x,right_top_y,problem\n";
const PARCEL: &str = "parcel,0,1,1,16538,1,92,92,23,1,5,144,2,11.763717,92,91,199.11131,110.828445,105.065674,18.614273,\
69.66859,204.87408,24.377052,75.431366,\n";
const TEXT: &str = "text,1,0,0,0,,,,,,,,,,,,,,,,,,,,\n";
const MISSING: &str = "missing,,,,,,,,,,,,,,,,,,,,,,,,no such file\n";

/// Crops of each family, damaged files and one that is missing.
fn archive(folder: &Folder) -> Vec<String> {
    let mut all = of_each_family(6);
    all.extend((0..40).map(|seed| (format!("bad-{seed}"), oracle::generate::bad_file(seed))));
    all.iter().for_each(|(name, file)| folder.write(name, file));
    let names = all.into_iter().map(|(name, _)| name);
    names.chain(["missing".into()]).collect()
}

/// A run over files.
fn over(folder: &Folder, args: &[&str], files: &[String]) -> Ran {
    let args = args.iter().copied();
    let args: Vec<&str> = args.chain(files.iter().map(String::as_str)).collect();
    folder.bullseye(&args)
}

#[test]
fn a_line_for_each_file_and_record() {
    let folder = Folder::new("table");
    folder.write("parcel", &parcel());
    folder.write("text", b"no crop");
    let ran = folder.bullseye(&["table", "parcel", "text", "missing"]);
    assert_eq!(ran.text(), format!("{HEADER}{PARCEL}{TEXT}{MISSING}"));
    let complaints = "bullseye: text: refused: 1 no crop header\nbullseye: missing: no such file\n";
    assert_eq!((ran.code, ran.err.as_str()), (Some(1), complaints));
    let again = folder.bullseye(&["table", "parcel", "text", "missing", "-o", "out.csv"]);
    assert_eq!((again.code, again.out), (Some(1), Vec::new()));
    assert_eq!(folder.read("out.csv"), ran.out);
}

#[test]
fn the_judges_records() {
    let folder = Folder::new("table-judge");
    let mut args = vec!["table".to_owned()];
    let mut expected = Vec::new();
    for (name, file) in of_each_family(4) {
        folder.write(&name, &file);
        let (report, records, _) = judged(&file);
        let start = format!(
            "{name},{},{},{},{}",
            report.answer, report.found, report.kept, report.marked
        );
        let kept = records.chunks_exact(40).take(report.kept as usize);
        for (number, record) in (1..).zip(kept) {
            let float = |at: usize| f32::from_bits(record[at]).to_string();
            let word = |at: usize| record[at].to_string();
            let mut cells = vec![start.clone(), number.to_string()];
            cells.extend([0, 1, 2, 26, 27].map(word));
            cells.extend([float(28), word(39), float(25), word(29), word(30)]);
            cells.extend((31..39).map(float));
            expected.push(cells.join(",") + ",");
        }
        if report.kept == 0 {
            expected.push(start + &",".repeat(20));
        }
        args.push(name);
    }
    let text = folder.bullseye(&args).text();
    let lines: Vec<&str> = text.lines().skip(1).collect();
    assert_eq!(lines, expected);
    assert!(lines.iter().any(|line| line.contains(",2,")));
}

#[test]
fn json_has_the_same() {
    let folder = Folder::new("table-json");
    folder.write("parcel", &parcel());
    let name = OsString::from_vec(b"\xff\"\\\n".to_vec());
    fs::write(folder.0.join(&name), b"no crop").expect("a file is written");
    let args = ["table", "--json", "parcel", "missing"].map(OsString::from);
    let ran = folder.bullseye(&[&args[..], &[name]].concat());
    let text = ran.text();
    let lines: Vec<&str> = text.lines().collect();
    let columns: Vec<&str> = HEADER.trim_end().split(',').collect();
    let cells: Vec<&str> = PARCEL.trim_end().split(',').collect();
    let members = (columns.iter().zip(cells)).map(|(column, cell)| match cell {
        "" => format!("\"{column}\":null"),
        "parcel" => format!("\"{column}\":\"parcel\""),
        _ => format!("\"{column}\":{cell}"),
    });
    let members: Vec<String> = members.collect();
    assert_eq!(lines[0], format!("{{{}}}", members.join(",")));
    assert!(lines[1].starts_with("{\"file\":\"missing\",\"answer\":null,"));
    assert!(lines[1].ends_with(",\"problem\":\"no such file\"}"));
    let start = "{\"file\":\"\\udcff\\\"\\\\\\u000a\",\"answer\":1,";
    assert!(lines[2].starts_with(start), "{}", lines[2]);
    assert_eq!((lines.len(), ran.code), (3, Some(1)));
}

#[test]
fn a_summary_of_tables_is_that_of_the_files() {
    let folder = Folder::new("table-summary");
    let files = archive(&folder);
    let of_files = over(&folder, &["summary"], &files);
    let (first, second) = files.split_at(files.len() / 3);
    over(&folder, &["table", "-o", "all.csv"], &files);
    over(&folder, &["table", "-o", "one.csv"], first);
    over(&folder, &["table", "-o", "two.csv"], second);
    let (one, two) = (folder.read("one.csv"), folder.read("two.csv"));
    folder.write("joined.csv", &[&one[..], &two].concat());
    let without = &two[HEADER.len()..];
    folder.write("bare.csv", &[&one[..], without].concat());
    let lines = String::from_utf8_lossy(&folder.read("joined.csv")).replace('\n', "\r\n");
    folder.write("returns.csv", lines.as_bytes());
    assert_eq!(folder.read("bare.csv"), folder.read("all.csv"));
    let tables: [&[&str]; 5] = [
        &["all.csv"],
        &["one.csv", "two.csv"],
        &["joined.csv"],
        &["bare.csv"],
        &["returns.csv"],
    ];
    for tables in tables {
        let ran = folder.bullseye(&[&["summary", "--table"], tables].concat());
        assert_eq!(ran.text(), of_files.text(), "{tables:?}");
        assert_eq!((ran.code, &ran.err), (of_files.code, &of_files.err));
    }
    let ran = folder.bullseye_reading(&["summary", "--table", "-"], &folder.read("all.csv"));
    assert_eq!(ran.text(), of_files.text());
}

#[test]
fn names_of_any_bytes() {
    let folder = Folder::new("table-names");
    let names: [&[u8]; 5] = [b"a,b", b"say \"x\"", b"two\nlines", b"\xff\xfe", b" blank"];
    let names = names.map(|name| OsString::from_vec(name.to_vec()));
    for name in &names {
        fs::write(folder.0.join(name), parcel()).expect("a file is written");
    }
    let start = ["table", "-o", "out.csv"].map(OsString::from);
    let ran = folder.bullseye(&[&start[..], &names].concat());
    assert_eq!((ran.code, ran.err.as_str()), (Some(0), ""));
    let table = folder.read("out.csv");
    for name in [
        &b"\n\"a,b\",0,1,"[..],
        b"\n\"say \"\"x\"\"\",0,1,",
        b"\n\"two\nlines\",0,1,",
        b"\n\xff\xfe,0,1,",
        b"\n blank,0,1,",
    ] {
        assert!(table.windows(name.len()).any(|part| part == name));
    }
    let files = folder.bullseye(&[&[OsString::from("summary")][..], &names].concat());
    let ran = folder.bullseye(&["summary", "--table", "out.csv"]);
    assert_eq!((ran.code, ran.text()), (Some(0), files.text()));
}

/// A table of the example, with a text replaced.
fn replaced(from: &str, to: &str) -> String {
    format!("{HEADER}{PARCEL}").replace(from, to)
}

/// Files with another first line, and what is said of them.
fn other_columns() -> Vec<(String, &'static str)> {
    vec![
        (String::new(), "an empty file, no table"),
        (
            PARCEL.into(),
            "not a table of this version: its first line is not the header",
        ),
        (
            replaced(",scale,", ",size,"),
            "not a table of this version: unknown column: size",
        ),
        (
            replaced(",scale,", ","),
            "not a table of this version: column scale is missing",
        ),
        (
            replaced(",x,y,", ",y,x,"),
            "not a table of this version: the columns stand in another order",
        ),
    ]
}

/// Tables with a line that cannot be, and what is said of them.
fn wrong_lines() -> Vec<(String, &'static str)> {
    let two = PARCEL.replace(",0,1,1,", ",0,2,2,");
    let third = two.replace(",16538,1,", ",16538,3,");
    vec![
        (
            replaced(",0,1,1,", ",10,1,1,"),
            "line 2: unknown answer: 10",
        ),
        (
            replaced(",144,2,", ",144,4,"),
            "line 2: unknown class of a turn: 4",
        ),
        (
            replaced(",23,1,", ",23,2,"),
            "line 2: unknown class without a turn: 2",
        ),
        (replaced(",23,1,", ",23,4,"), "line 2: unknown outcome: 4"),
        (
            replaced(",23,1,5,144,2,", ",23,3,0,0,4,"),
            "line 2: an ellipse in a table made without --ellipse",
        ),
        (
            replaced(",92,92,23", ",9x,92,23"),
            "line 2: x is no number: \"9x\"",
        ),
        (
            replaced(",16538,1,", ",16538,2,"),
            "line 2: record 1 of parcel should be here",
        ),
        (
            format!("{HEADER}{two}"),
            "it ends before record 2 of parcel",
        ),
        (
            format!("{HEADER}{two}{TEXT}"),
            "line 3: record 2 of parcel should be here",
        ),
        (
            format!("{HEADER}{two}{third}"),
            "line 3: record 2 of parcel should be here",
        ),
        (
            replaced(",0,1,1,", ",9,1,0,"),
            "line 2: it has more records than kept 0",
        ),
        (
            replaced(",0,1,1,", ",0,1,0,"),
            "line 2: answer 0 does not go with found 1 and kept 0",
        ),
        (
            replaced(",0,1,1,", ",9,0,0,"),
            "line 2: answer 9 does not go with found 0 and kept 0",
        ),
        (
            replaced(",0,1,1,", ",7,1,0,"),
            "line 2: answer 7 does not go with found 1 and kept 0",
        ),
        (
            replaced(",0,1,1,", ",3,1,0,"),
            "line 2: answer 3 does not go with found 1 and kept 0",
        ),
        (
            replaced("75.431366,\n", "75.431366\n"),
            "line 2: 24 columns instead of 25",
        ),
        (format!("{HEADER}\n"), "line 2: 1 columns instead of 25"),
        (replaced("parcel", "\"parcel"), "its quotes are not closed"),
    ]
}

#[test]
fn what_is_no_table() {
    let folder = Folder::new("table-none");
    for (table, why) in other_columns().into_iter().chain(wrong_lines()) {
        folder.write("bad.csv", table.as_bytes());
        folder.write("good.csv", HEADER.as_bytes());
        for args in [
            &["summary", "--table", "bad.csv"][..],
            &["compare", "bad.csv", "good.csv"],
            &["compare", "good.csv", "bad.csv"],
        ] {
            let ran = folder.bullseye(args);
            assert_eq!((ran.code, ran.text().as_str()), (Some(2), ""), "{why}");
            assert!(ran.err.starts_with("bullseye: bad.csv: "), "{}", ran.err);
            assert!(ran.err.ends_with(&format!("{why}\n")), "{}", ran.err);
        }
    }
}

#[test]
fn tables_that_cannot_be_read() {
    let folder = Folder::new("table-unread");
    fs::create_dir(folder.0.join("inner")).expect("a folder is made");
    let huge = fs::File::create(folder.0.join("huge")).expect("a file is made");
    huge.set_len(1 << 32).expect("it may have holes");
    for (file, why) in [
        ("missing", "no such file"),
        ("inner", "a folder, not a file"),
        ("huge", "line 1: it is too long"),
    ] {
        let ran = folder.bullseye(&["summary", "--table", file]);
        let complaint = format!("bullseye: {file}: {why}\n");
        assert_eq!((ran.code, ran.err), (Some(2), complaint));
    }
}
