//! `bullseye find`.
use super::*;
use std::fmt::Write;

const PARCEL: &str = "\
answer 0 found 1 kept 1 marked 16538
92 92 23 1 5 144 2 413c382f 43471c7f 42dda82a 42d221a0 4194ea08 428b5651 434cdfc4 41c30434 4296dcdc
";
const WHITE: &str = "answer 8 found 0 kept 0 marked 242\n";

/// The program's lines, out of the judge's words.
fn expected(file: &[u8]) -> String {
    let (report, records, _) = judged(file);
    let mut text = format!(
        "answer {} found {} kept {} marked {}\n",
        report.answer, report.found, report.kept, report.marked
    );
    for record in records.chunks_exact(40).take(report.kept as usize) {
        let rotation = f32::from_bits(record[28]);
        for word in [record[0], record[1], record[2], record[26], record[27]] {
            let _ = write!(text, "{word} ");
        }
        let _ = write!(text, "{rotation} {} {:08x}", record[39], record[25]);
        for corner in &record[31..39] {
            let _ = write!(text, " {corner:08x}");
        }
        text.push('\n');
    }
    text
}

#[test]
fn one_file_has_the_lines_alone() {
    let folder = Folder::new("find-one");
    folder.write("parcel", &parcel());
    let ran = folder.bullseye(&["find", "parcel"]);
    assert_eq!((ran.code, ran.err.as_str()), (Some(0), ""));
    assert_eq!(ran.text(), PARCEL);
    let ran = folder.bullseye_reading(&["find", "-"], &white());
    assert_eq!((ran.code, ran.text().as_str()), (Some(0), WHITE));
}

#[test]
fn a_bad_file_does_not_end_the_run() {
    let folder = Folder::new("find-bad");
    folder.write("parcel", &parcel());
    folder.write("white", &white());
    folder.write("text", b"no crop");
    let ran = folder.bullseye(&["find", "parcel", "text", "missing", "white"]);
    let refused = "answer 1 found 0 kept 0 marked 0\n";
    let lines = format!("parcel:\n{PARCEL}text:\n{refused}white:\n{WHITE}");
    assert_eq!(ran.text(), lines);
    let complaints = "bullseye: text: refused: 1 no crop header\nbullseye: missing: no such file\n";
    assert_eq!(ran.err, complaints);
    assert_eq!(ran.code, Some(1));
}

#[test]
fn the_judges_lines() {
    let folder = Folder::new("find-judge");
    let mut args = vec!["find".to_owned()];
    let mut lines = String::new();
    let mut crops = of_each_family(12);
    crops.extend((0..60).map(|seed| (format!("bad-{seed}"), oracle::generate::bad_file(seed))));
    for (name, file) in crops {
        folder.write(&name, &file);
        lines += &format!("{name}:\n{}", expected(&file));
        args.push(name);
    }
    let ran = folder.bullseye(&args);
    assert_eq!(ran.text(), lines);
    for answer in [0, 1, 4, 8, 9] {
        assert!(lines.contains(&format!("\nanswer {answer} ")), "{answer}");
    }
}

#[test]
fn more_candidates_than_records() {
    let folder = Folder::new("find-many");
    folder.write("crowded", &crowded());
    let ran = folder.bullseye(&["find", "crowded"]);
    assert_eq!(ran.text(), expected(&crowded()));
    let start = "answer 7 found 401 kept 0 ";
    assert!(ran.text().starts_with(start), "{}", ran.text());
    assert_eq!(ran.code, Some(0));
}
