//! `bullseye blank`.
use super::*;

/// Blanks a crop and holds the result against the judge's marks; how many pixels became white.
fn blanked(folder: &Folder, name: &str, file: &[u8]) -> usize {
    folder.write(name, file);
    let ran = folder.bullseye(&["blank", name]);
    assert_eq!(ran.code, Some(0), "{}", ran.err);
    let (width, height, before) = pixels(file);
    let (_, _, after) = pixels(&ran.out);
    assert_eq!((ran.out.len(), bullseye::check(&ran.out)), (file.len(), 0));
    let (report, records, marks) = judged(file);
    let row = width.div_ceil(64);
    let read = |i: usize| marks[i / width * row + i % width / 64] >> (i % width % 64) & 1 != 0;
    for i in 0..width * height {
        assert_eq!(after[i], before[i] && read(i), "{name}: pixel {i}");
    }
    let kept = (0..width * height).filter(|&i| read(i)).count();
    let across = |y: usize| (6..width - 6).all(|x| read(y * width + x));
    let rows = (0..height).filter(|&y| across(y)).count();
    assert_eq!(judged(&ran.out), (report, records, marks), "{name}");
    let whitened = (0..width * height)
        .filter(|&i| before[i] != after[i])
        .count();
    let line = format!(
        "bullseye: {name}: made {whitened} unread black pixels white; \
kept {kept} of {} pixels, {rows} of {height} rows from side to side; \
both searches agree in answer, counts, records and marks\n",
        width * height
    );
    assert_eq!(ran.err, line);
    whitened
}

#[test]
fn what_was_not_read_is_white() {
    let folder = Folder::new("blank");
    assert!(blanked(&folder, "parcel", &parcel()) > 1000);
    assert_eq!(blanked(&folder, "white", &white()), 0);
    let crops = of_each_family(5);
    let whitened = crops
        .iter()
        .map(|(name, file)| blanked(&folder, name, file));
    assert!(whitened.filter(|&count| count > 0).count() > 20);
}

#[test]
fn twice_is_once() {
    let folder = Folder::new("blank-twice");
    folder.write("parcel", &parcel());
    let first = folder.bullseye(&["blank", "parcel", "-o", "once"]);
    assert_eq!((first.code, first.out.len()), (Some(0), 0));
    let second = folder.bullseye(&["blank", "once"]);
    assert!(
        second
            .err
            .starts_with("bullseye: once: made 0 unread black pixels white; ")
    );
    assert_eq!(second.out, folder.read("once"));
}

#[test]
fn a_refused_crop() {
    let folder = Folder::new("blank-refused");
    folder.write("long", &[white(), vec![0]].concat());
    let ran = folder.bullseye(&["blank", "long", "-o", "out"]);
    let complaint = "bullseye: long: refused: 4 length does not match the dimensions\n";
    assert_eq!((ran.code, ran.err.as_str()), (Some(1), complaint));
    assert!(!folder.0.join("out").exists());
}

/// Crops in a folder and a folder in it, a refused file, and one that is missing.
fn several(folder: &Folder) -> Vec<(String, Vec<u8>)> {
    fs::create_dir_all(folder.0.join("all/inner")).expect("a folder is made");
    let crops = of_each_family(3).into_iter().enumerate();
    let crops = crops.map(|(place, (name, file))| match place % 2 {
        0 => (name, file),
        _ => (format!("inner/{name}"), file),
    });
    let crops: Vec<(String, Vec<u8>)> = crops.collect();
    for (name, file) in &crops {
        folder.write(&format!("all/{name}"), file);
    }
    crops
}

#[test]
fn many_into_a_folder() {
    let folder = Folder::new("blank-many");
    let crops = several(&folder);
    let ran = folder.bullseye(&["blank", "all", "-o", "out/blanked"]);
    assert_eq!((ran.code, ran.err.as_str()), (Some(0), ""));
    let text = ran.text();
    let mut lines: Vec<&str> = text.lines().collect();
    let last = lines.pop().expect("a total");
    assert_eq!(lines.len(), crops.len());
    let mut whitened = 0;
    for (name, file) in &crops {
        let one = folder.bullseye(&["blank", &format!("all/{name}")]);
        assert_eq!(folder.read(&format!("out/blanked/{name}")), one.out);
        assert_eq!(one.out.len(), file.len());
        let line = one.err.strip_prefix("bullseye: ").expect("its line");
        assert!(lines.contains(&line.trim_end()), "{line}");
        let count = line.split("made ").nth(1).and_then(|s| s.split(' ').next());
        whitened += count
            .and_then(|s| s.parse::<usize>().ok())
            .expect("a number");
    }
    let total = crops.len();
    assert_eq!(
        last,
        format!(
            "total {total}: agree {total}, differ 0, refused 0, not read 0, not written 0; \
made {whitened} unread black pixels white"
        )
    );
}

#[test]
fn many_with_bad_ones() {
    let folder = Folder::new("blank-bad");
    folder.write("parcel", &parcel());
    folder.write("text", b"no crop");
    fs::create_dir_all(folder.0.join("out/white")).expect("a folder is made");
    folder.write("white", &white());
    let ran = folder.bullseye(&["blank", "text", "parcel", "missing", "white", "-o", "out"]);
    let complaints = "\
bullseye: text: refused: 1 no crop header
bullseye: missing: no such file
bullseye: white: out/white: a folder, not a file
";
    assert_eq!((ran.code, ran.err.as_str()), (Some(1), complaints));
    let last = "total 4: agree 1, differ 0, refused 1, not read 1, not written 1; ";
    assert!(ran.text().contains(last), "{}", ran.text());
    let list = fs::read_dir(folder.0.join("out")).expect("it is listed");
    assert_eq!(list.count(), 2, "parcel, and the folder that was there");
}

#[test]
fn one_into_a_folder_that_is_there() {
    let folder = Folder::new("blank-there");
    folder.write("parcel", &parcel());
    fs::create_dir(folder.0.join("out")).expect("a folder is made");
    let ran = folder.bullseye(&["blank", "parcel", "-o", "out"]);
    assert_eq!((ran.code, ran.text().lines().count()), (Some(0), 2));
    let alone = folder.bullseye(&["blank", "parcel"]);
    assert_eq!(folder.read("out/parcel"), alone.out);
}

#[test]
fn many_without_a_place() {
    let folder = Folder::new("blank-place");
    for name in ["a", "b"] {
        fs::create_dir(folder.0.join(name)).expect("a folder is made");
        folder.write(&format!("{name}/x"), &white());
    }
    folder.write("file", b"");
    let none = folder.bullseye(&["blank", "a", "b"]);
    assert_eq!(none.code, Some(2));
    let input = folder.bullseye(&["blank", "-", "a/x", "-o", "out"]);
    assert_eq!(input.code, Some(2));
    let twice = folder.bullseye(&["blank", "a", "b", "-o", "out"]);
    let complaint = "bullseye: out/x: two crops would be written there\n";
    assert_eq!((twice.code, twice.err.as_str()), (Some(1), complaint));
    assert!(!folder.0.join("out").exists());
    let file = folder.bullseye(&["blank", "a/x", "b", "-o", "file"]);
    assert_eq!(file.code, Some(1), "{}", file.err);
}
