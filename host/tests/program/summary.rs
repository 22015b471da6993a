//! `bullseye summary`.
use super::*;

/// The cells of the row with this label in the table with this title.
fn cells(text: &str, title: &str, label: &str) -> Vec<String> {
    let table = text.split("\n\n").find(|table| table.starts_with(title));
    let row = table
        .expect("the table is there")
        .lines()
        .find_map(|line| line.strip_prefix(&format!("  {label} ")));
    let row = row.unwrap_or_else(|| panic!("{title}: {label} in\n{text}"));
    let cells = row
        .split("  ")
        .map(str::trim)
        .filter(|cell| !cell.is_empty());
    cells.map(str::to_owned).collect()
}

#[test]
fn a_few_files() {
    let folder = Folder::new("summary-few");
    folder.write("parcel", &parcel());
    folder.write("white", &white());
    folder.write("lost", &generated("lost", 20));
    folder.write("long", &[white(), vec![0]].concat());
    folder.write("crowded", &crowded());
    folder.write("aside", &set_aside());
    let files = [
        "parcel", "long", "white", "missing", "lost", "crowded", "aside",
    ];
    let ran = folder.bullseye(&[&["summary"][..], &files].concat());
    let text = ran.text();
    for (label, count) in [
        ("searched", "5"),
        ("refused", "1"),
        ("not read", "1"),
        ("all", "7"),
    ] {
        assert_eq!(cells(&text, "Files", label), [count]);
    }
    for label in ["crops whose first box has no turn", "boxes without a turn"] {
        assert_eq!(cells(&text, "Missed", label), ["1", "2", "50.0 %"]);
    }
    for label in ["crops whose first record is an ellipse", "ellipses"] {
        assert_eq!(cells(&text, "Missed", label), ["0", "2", "0.0 %"]);
    }
    for label in ["empty (8)", "set aside (9)", "too many (7)"] {
        assert_eq!(cells(&text, "Missed", label), ["1", "5", "20.0 %"]);
    }
    let label = "searched crops without a box";
    assert_eq!(cells(&text, "Missed", label), ["3", "5", "60.0 %"]);
    for (number, count) in (0..).zip(["2", "0", "0", "0", "1", "0", "0", "1", "1", "1"]) {
        let label = format!("{number} {}", crops::meaning(number).expect("known"));
        assert_eq!(cells(&text, "Answer", &label), [count]);
    }
    assert_eq!(cells(&text, "Outcome", "1 turned"), ["1", "1"]);
    assert_eq!(cells(&text, "Outcome", "2 lost centre"), ["1", "1"]);
    for title in ["Class of crops", "Class of boxes"] {
        assert_eq!(cells(&text, title, "0"), ["0", "0", "0", "0", "0"]);
        assert_eq!(cells(&text, title, "2"), ["1", "0", "0", "0", "1"]);
        assert_eq!(cells(&text, title, "4"), ["0", "0", "1", "0", "1"]);
    }
    let complaints = "\
bullseye: long: refused: 4 length does not match the dimensions
bullseye: missing: no such file
";
    assert_eq!((ran.code, ran.err.as_str()), (Some(1), complaints));
}

/// A table in which 8 stands for empty and set aside alike is counted by what was found.
#[test]
fn a_table_with_one_number_for_both() {
    let folder = Folder::new("summary-both");
    folder.write("white", &white());
    folder.write("aside", &set_aside());
    let table = folder.bullseye(&["table", "white", "aside"]).text();
    let both = table.replace("aside,9,4,0,", "aside,8,4,0,");
    assert_ne!(both, table);
    folder.write("both.csv", both.as_bytes());
    let text = folder.bullseye(&["summary", "--table", "both.csv"]).text();
    for label in ["empty (8)", "set aside (9)"] {
        assert_eq!(cells(&text, "Missed", label), ["1", "2", "50.0 %"]);
    }
}

/// A table in which the class is 0 without a turn, by itself and beside one of this version: the missed figures go by the outcome, the
/// classes by the numbers, and a line says so.
#[test]
fn a_table_without_class_4() {
    let folder = Folder::new("summary-class-0");
    folder.write("eye", &ellipse());
    folder.write("lost", &generated("lost", 20));
    let table = folder.bullseye(&["table", "--ellipse", "eye", "lost"]);
    let before = table.text().replace(",0,4,", ",0,0,");
    assert_eq!(table.text().matches(",0,4,").count(), 2);
    folder.write("before.csv", before.as_bytes());
    folder.write("now.csv", &table.out);
    let summary = |tables: &[&str]| {
        let args = [&["summary", "--table"], tables].concat();
        folder.bullseye(&args).text()
    };
    let line = "class 0 without a turn: a table of a version before 0.5\n";
    let title = "Class of boxes";
    let text = summary(&["before.csv"]);
    assert_eq!(text.matches(line).count(), 1, "{text}");
    for label in ["boxes without a turn", "ellipses"] {
        assert_eq!(cells(&text, "Missed", label), ["1", "2", "50.0 %"]);
    }
    assert_eq!(cells(&text, title, "0"), ["0", "0", "1", "1", "2"]);
    assert_eq!(cells(&text, title, "4"), ["0", "0", "0", "0", "0"]);
    let text = summary(&["before.csv", "now.csv"]);
    assert_eq!(text.matches(line).count(), 1, "{text}");
    for class in ["0", "4"] {
        assert_eq!(cells(&text, title, class), ["0", "0", "1", "1", "2"]);
    }
    assert!(!summary(&["now.csv"]).contains(line));
}

#[test]
fn nothing_that_could_be_missed() {
    let folder = Folder::new("summary-none");
    folder.write("white", &white());
    let ran = folder.bullseye(&["summary", "white"]);
    let text = ran.text();
    let label = "searched crops without a box";
    assert_eq!(cells(&text, "Missed", label), ["1", "1", "100.0 %"]);
    for label in ["boxes without a turn", "ellipses"] {
        assert_eq!(cells(&text, "Missed", label), ["0", "0", "-"]);
    }
    assert_eq!((ran.code, ran.err.as_str()), (Some(0), ""));
}

#[test]
fn lines_end_under_their_columns() {
    let folder = Folder::new("summary-lines");
    folder.write("parcel", &parcel());
    let text = folder.bullseye(&["summary", "parcel"]).text();
    for table in text.split("\n\n") {
        let mut lengths = table.lines().map(|line| line.chars().count());
        let first = lengths.next();
        assert!(lengths.all(|length| Some(length) == first), "{table}");
    }
}

/// Counts by class and outcome's word.
type Grid = [[usize; 4]; crops::CLASSES as usize];

fn numbers(cells: Vec<String>) -> Vec<usize> {
    let number = |cell: String| cell.parse().expect("a number");
    cells.into_iter().map(number).collect()
}

/// The grid that a summary shows, from the order of its columns: turned, no turn, lost centre, ellipse.
fn grid(text: &str, title: &str) -> Grid {
    let row = |class: usize| {
        let cells = numbers(cells(text, title, &class.to_string()));
        let [turned, no_turn, lost, ellipse, all] = cells[..] else {
            panic!("{title} has five columns");
        };
        assert_eq!(turned + no_turn + lost + ellipse, all);
        [no_turn, turned, lost, ellipse]
    };
    [row(0), row(1), row(2), row(3), row(4)]
}

/// How many have one of these outcomes, of how many.
fn with(grid: Grid, outcomes: &[usize]) -> [usize; 2] {
    let all: usize = grid.iter().flatten().sum();
    let these = |row: &[usize; 4]| outcomes.iter().map(|&outcome| row[outcome]).sum::<usize>();
    [grid.iter().map(these).sum(), all]
}

/// The line of class 4 has every record without a turn and no other: the boxes without a turn and the ellipses.
fn last_class(text: &str, title: &str, figures: [&str; 2]) {
    let figure = |label: &str| numbers(cells(text, "Missed", label)[..1].to_vec())[0];
    let line = numbers(cells(text, title, "4"));
    let [without, ellipses] = figures.map(figure);
    assert_eq!(line[4], without + ellipses, "{title}");
    assert_eq!(line[0], 0, "{title}");
    assert_eq!(line[1] + line[2], without, "{title}");
    assert_eq!(line[3], ellipses, "{title}");
}

#[test]
fn the_judges_counts() {
    let folder = Folder::new("summary-judge");
    counted(&folder, &["summary"], false);
    counted(&folder, &["summary", "--ellipse"], true);
}

/// What the judge counts: answers, crops and boxes.
#[derive(Default)]
struct Judged {
    answers: [usize; crops::ANSWERS.len()],
    crops: Grid,
    boxes: Grid,
}

impl Judged {
    fn add(&mut self, file: &[u8], ellipse: bool) {
        let (report, records, _) = judged_with(file, ellipse);
        self.answers[report.answer as usize] += 1;
        let kept = records.chunks_exact(40).take(report.kept as usize);
        for (number, record) in kept.enumerate() {
            let (class, outcome) = (record[39] as usize, record[26] as usize);
            self.boxes[class][outcome] += 1;
            self.crops[class][outcome] += usize::from(number == 0);
        }
    }
}

/// Holds the counts of crops of each family, made with the ellipse check or without, against the judge's.
fn counted(folder: &Folder, args: &[&str], ellipse: bool) {
    let mut args: Vec<String> = args.iter().map(|&arg| arg.into()).collect();
    let mut judged = Judged::default();
    for (name, file) in [of_each_family(15), for_ellipses(30)].concat() {
        folder.write(&name, &file);
        judged.add(&file, ellipse);
        args.push(name);
    }
    let Judged {
        answers,
        crops,
        boxes,
    } = judged;
    let text = folder.bullseye(&args).text();
    for (number, count) in (0..).zip(answers) {
        let label = format!("{number} {}", crops::meaning(number).expect("known"));
        assert_eq!(cells(&text, "Answer", &label), [count.to_string()]);
    }
    assert_eq!(grid(&text, "Class of crops"), crops);
    assert_eq!(grid(&text, "Class of boxes"), boxes);
    assert!(crops[..4].iter().all(|row| row[1] > 0), "each turn occurs");
    assert!(crops[4][0] > 0 && crops[4][2] > 0, "each other occurs");
    last_class(
        &text,
        "Class of crops",
        [
            "crops whose first box has no turn",
            "crops whose first record is an ellipse",
        ],
    );
    last_class(
        &text,
        "Class of boxes",
        ["boxes without a turn", "ellipses"],
    );
    assert_ne!(crops, boxes);
    assert_eq!(boxes.iter().any(|row| row[3] > 0), ellipse);
    let searched = answers[0] + answers[7] + answers[8] + answers[9];
    for (label, expected) in [
        ("crops whose first box has no turn", with(crops, &[0, 2])),
        ("crops whose first record is an ellipse", with(crops, &[3])),
        ("boxes without a turn", with(boxes, &[0, 2])),
        ("ellipses", with(boxes, &[3])),
        ("empty (8)", [answers[8], searched]),
        ("set aside (9)", [answers[9], searched]),
        ("too many (7)", [answers[7], searched]),
        (
            "searched crops without a box",
            [searched - answers[0], searched],
        ),
    ] {
        let seen = &cells(&text, "Missed", label)[..2];
        assert_eq!(seen, expected.map(|count| count.to_string()), "{label}");
    }
}

/// The sum of a table's column.
fn sum(text: &str, title: &str, column: usize) -> usize {
    let table = text.split("\n\n").find(|table| table.starts_with(title));
    let rows = table.expect("the table is there").lines().skip(1);
    let cell = |row: &str| -> usize {
        let cells: Vec<&str> = row[44..].split_whitespace().collect();
        cells[column].parse().expect("a number")
    };
    rows.map(cell).sum()
}

#[test]
fn totals_equal_the_inputs() {
    let folder = Folder::new("summary-totals");
    let mut args = vec!["summary".to_owned(), "missing".to_owned()];
    let (mut with_box, mut boxes) = (0, 0);
    let mut all = of_each_family(6);
    all.extend((0..60).map(|seed| (format!("bad-{seed}"), oracle::generate::bad_file(seed))));
    for (name, file) in all {
        folder.write(&name, &file);
        args.push(name);
        let (report, _, _) = judged(&file);
        boxes += report.kept as usize;
        with_box += usize::from(report.kept > 0);
    }
    let text = folder.bullseye(&args).text();
    let files = args.len() - 1;
    assert_eq!(numbers(cells(&text, "Files", "all")), [files]);
    // The row of all is in the sum too.
    assert_eq!(sum(&text, "Files", 0), 2 * files);
    assert_eq!(sum(&text, "Answer", 0), files - 1);
    assert_eq!(
        [0, 1].map(|column| sum(&text, "Outcome", column)),
        [with_box, boxes]
    );
    assert_eq!(sum(&text, "Class of crops", 4), with_box);
    assert_eq!(sum(&text, "Class of boxes", 4), boxes);
}
