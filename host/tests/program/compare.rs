//! `bullseye compare`.
use super::*;

/// The table of some crops, as text.
fn table(folder: &Folder) -> String {
    folder.write("parcel", &parcel());
    folder.write("white", &white());
    folder.write("lost", &generated("lost", 20));
    folder.write("text", b"no crop");
    let files = ["parcel", "white", "lost", "text", "missing"];
    folder.bullseye(&[&["table"][..], &files].concat()).text()
}

/// What a comparison prints: its lines about crops, and the numbers of its first two tables as pairs.
fn compared(folder: &Folder, old: &str, new: &str) -> (i32, Vec<String>, Vec<(String, usize)>) {
    folder.write("old.csv", old.as_bytes());
    folder.write("new.csv", new.as_bytes());
    let ran = folder.bullseye(&["compare", "old.csv", "new.csv"]);
    assert_eq!(ran.err, "");
    let text = ran.text();
    let (text, _) = text
        .split_once("\nWithout a box  ")
        .expect("the last table");
    let (lines, tables) = text.split_at(text.find("Crops  ").expect("a table"));
    let lines = lines.lines().filter(|line| !line.is_empty());
    let number = |line: &str| {
        let (label, count) = line.strip_prefix("  ")?.rsplit_once("  ")?;
        let count = count.trim().parse().expect("a number");
        (count > 0).then(|| (label.trim().to_owned(), count))
    };
    (
        ran.code.expect("it ends by itself"),
        lines.map(str::to_owned).collect(),
        tables.lines().filter_map(number).collect(),
    )
}

fn counts(pairs: &[(&str, usize)]) -> Vec<(String, usize)> {
    let pair = |&(label, count): &(&str, usize)| (label.to_owned(), count);
    pairs.iter().map(pair).collect()
}

#[test]
fn a_table_and_itself() {
    let folder = Folder::new("compare-same");
    let table = table(&folder);
    let same = counts(&[("unchanged", 5), ("all of the old table", 5)]);
    assert_eq!(compared(&folder, &table, &table), (0, vec![], same));
}

/// A text of the table, what stands there instead, the line that tells it, and what is counted.
const CHANGES: [(&str, &str, &str, &str); 10] = [
    (
        ",16538,",
        ",16539,",
        "parcel: marked 16538 -> 16539",
        "counts",
    ),
    ("text,1,", "text,4,", "text: answer 1 -> 4", "answer"),
    (
        ",5,144,2,",
        ",5,146,2,",
        "parcel: record 1: turn 144 -> 146",
        "turn",
    ),
    (
        ",144,2,",
        ",144,3,",
        "parcel: record 1: class 2 -> 3",
        "class",
    ),
    (
        ",10,2,2,0,4,",
        ",10,2,2,0,0,",
        "lost: record 1: class 4 -> 0",
        "class",
    ),
    (
        ",10,2,2,0,4,",
        ",10,0,2,0,4,",
        "lost: record 1: outcome lost centre -> no turn",
        "outcome",
    ),
    (
        ",11.763717,",
        ",11.763718,",
        "parcel: record 1: variance",
        "other fields",
    ),
    (
        "parcel,0,1,1,16538,1,92,92",
        "parcel,0,1,1,16538,1,92,93",
        "parcel: record 1: circle",
        "other fields",
    ),
    (
        ",24.377052,",
        ",24.5,",
        "parcel: record 1: corners",
        "other fields",
    ),
    (
        "no such file",
        "denied",
        "missing: problem no such file -> denied",
        "other fields",
    ),
];

#[test]
fn each_change_is_listed_and_counted() {
    let folder = Folder::new("compare-each");
    let old = table(&folder);
    for (from, to, line, what) in CHANGES {
        let new = old.replace(from, to);
        assert_ne!(new, old, "{from}");
        let expected = counts(&[
            ("unchanged", 4),
            ("changed", 1),
            ("all of the old table", 5),
            (what, 1),
        ]);
        let ran = compared(&folder, &old, &new);
        assert_eq!(ran, (1, vec![line.to_owned()], expected));
    }
}

#[test]
fn fewer_boxes_or_none() {
    let folder = Folder::new("compare-fewer");
    let old = table(&folder);
    let parcel = old.lines().nth(1).expect("a line").to_owned() + "\n";
    let lines = |line: &str| old.replace(&parcel, line);
    let gone = format!("parcel,9,1,0,16538{}\n", ",".repeat(20));
    let (code, list, _) = compared(&folder, &old, &lines(&gone));
    let line = "parcel: answer 0 -> 9; kept 1 -> 0";
    assert_eq!((code, list), (1, vec![line.to_owned()]));
    let unread = format!("parcel{}denied\n", ",".repeat(24));
    let (code, list, _) = compared(&folder, &old, &lines(&unread));
    let line = "parcel: answer 0 -> none (denied)";
    assert_eq!((code, list), (1, vec![line.to_owned()]));
}

/// Searched crops without a box are counted in both tables, by what was found.
#[test]
fn crops_without_a_box() {
    let folder = Folder::new("compare-missed");
    folder.write("crowded", &crowded());
    folder.write("aside", &set_aside());
    let rows = folder.bullseye(&["table", "crowded", "aside"]).text();
    let new = table(&folder) + &rows;
    let old = new.replace("aside,9,4,0,", "aside,8,4,0,");
    assert_ne!(old, new);
    folder.write(
        "old.csv",
        old.replace("white,8,0,", "white,7,401,").as_bytes(),
    );
    folder.write("new.csv", new.as_bytes());
    let text = folder.bullseye(&["compare", "old.csv", "new.csv"]).text();
    assert!(text.contains("aside: answer 8 -> 9\n"), "{text}");
    let (_, missed) = text
        .split_once("\nWithout a box  ")
        .expect("the last table");
    let cells = |line: &str| line[44..].split_whitespace().map(str::to_owned).collect();
    let rows: Vec<Vec<String>> = missed.lines().skip(1).map(cells).collect();
    assert_eq!(rows, [["0", "1"], ["1", "1"], ["2", "1"], ["3", "3"]]);
}

#[test]
fn added_and_missing_crops() {
    let folder = Folder::new("compare-added");
    let old = table(&folder);
    let white = "white,8,0,0,242,,,,,,,,,,,,,,,,,,,,\n";
    let new = old.replace(white, "new,8,0,0,242,,,,,,,,,,,,,,,,,,,,\n");
    let expected = counts(&[
        ("unchanged", 4),
        ("missing", 1),
        ("all of the old table", 5),
        ("added", 1),
    ]);
    let lines = vec!["new: added".to_owned(), "white: missing".to_owned()];
    assert_eq!(compared(&folder, &old, &new), (1, lines, expected));
    // A name that stands twice is compared in order.
    let twice = format!("{old}{white}");
    let (code, lines, _) = compared(&folder, &old, &twice);
    assert_eq!((code, lines), (1, vec!["white: added".to_owned()]));
    let (code, lines, _) = compared(&folder, &twice, &old);
    assert_eq!((code, lines), (1, vec!["white: missing".to_owned()]));
}

#[test]
fn standard_input_and_bad_usage() {
    let folder = Folder::new("compare-input");
    let table = table(&folder);
    folder.write("old.csv", table.as_bytes());
    let ran = folder.bullseye_reading(&["compare", "old.csv", "-"], table.as_bytes());
    assert_eq!(ran.code, Some(0));
    let full = fs::File::options().write(true).open("/dev/full");
    let output = folder
        .command(&["compare", "old.csv", "old.csv"])
        .stdout(full.expect("the system has /dev/full"))
        .output()
        .expect("the program runs");
    let complaint = "bullseye: standard output: no space left\n";
    let errors = String::from_utf8_lossy(&output.stderr);
    assert_eq!((output.status.code(), &*errors), (Some(2), complaint));
    for wrong in [&["old.csv"][..], &["-", "-"], &["a", "b", "c"]] {
        let ran = folder.bullseye(&[&["compare"], wrong].concat());
        assert_eq!(ran.code, Some(2), "{wrong:?}");
    }
}
