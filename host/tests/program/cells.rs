//! `bullseye cells`.
use super::{
    view::{elements, inside, value, well_formed},
    *,
};
use crops::{CELL_COLUMNS, CELL_ROWS};
use oracle::cases::{JUDGE, SECOND};

/// The judge's answer and cells.
fn judged_cells(file: &[u8]) -> (u32, [u32; CELL_ROWS]) {
    let mut cells = [0; CELL_ROWS];
    let mut words = vec![0; crops::words_of(file)];
    let entries = JUDGE.unwrap_or(SECOND);
    let answer = (entries.cells_file)(file, &mut words, &mut cells);
    (answer, cells)
}

/// Rows of cells as the command prints them.
fn drawn(cells: &[u32; CELL_ROWS]) -> String {
    let mut text = String::new();
    for (row, word) in cells.iter().enumerate() {
        let mut line = vec![' '; 2 * CELL_COLUMNS - 1 + row % 2];
        for column in 0..CELL_COLUMNS {
            let black = word >> column & 1 == 1;
            line[2 * column + row % 2] = if black { '#' } else { '.' };
        }
        text.extend(line);
        text.push('\n');
    }
    text
}

fn hex(cells: &[u32; CELL_ROWS]) -> String {
    cells.iter().map(|word| format!("{word:08x}\n")).collect()
}

/// A crop with white columns on the left and white rows on top.
fn moved(file: &[u8], left: u32, top: u32) -> Vec<u8> {
    let (width, height, black) = pixels(file);
    let (wide, high) = (width as u32 + left, height as u32 + top);
    let mut words = vec![0; crops::image_words(wide, high)];
    for (place, _) in black.iter().enumerate().filter(|(_, black)| **black) {
        let (x, y) = ((place % width) as u32, (place / width) as u32);
        crops::set_pixel(&mut words, wide, x + left, y + top);
    }
    crops::pack(&words, wide, high)
}

#[test]
fn a_symbol_in_text_and_in_words() {
    let (answer, cells) = judged_cells(&lone());
    assert_eq!(answer, 0);
    let folder = Folder::new("cells-lone");
    folder.write("lone", &lone());
    let text = folder.bullseye(&["cells", "lone"]);
    assert_eq!((text.code, text.err.as_str()), (Some(0), ""));
    assert_eq!(text.text(), drawn(&cells));
    let words = folder.bullseye_reading(&["cells", "--hex", "-"], &lone());
    assert_eq!((words.code, words.err.as_str()), (Some(0), ""));
    assert_eq!(words.text(), hex(&cells));
}

#[test]
fn the_judges_cells() {
    let folder = Folder::new("cells-judge");
    let mut crops = of_each_family(6);
    crops.push(("lone".into(), lone()));
    crops.push(("white".into(), white()));
    crops.extend((0..40).map(|seed| (format!("bad-{seed}"), oracle::generate::bad_file(seed))));
    let mut names = Vec::new();
    let (mut text, mut words, mut unread) = (String::new(), String::new(), 0);
    for (name, file) in crops {
        folder.write(&name, &file);
        let (answer, cells) = judged_cells(&file);
        if answer == 0 {
            text += &format!("{name}:\n{}", drawn(&cells));
            words += &format!("{name}:\n{}", hex(&cells));
        }
        unread += usize::from(answer != 0);
        names.push(name);
    }
    assert!(unread > 10 && text.len() > words.len());
    for (option, expected) in [(&[][..], text), (&["--hex".to_owned()], words)] {
        let args = [&["cells".to_owned()], option, &names].concat();
        let ran = folder.bullseye(&args);
        assert!(ran.text() == expected, "{option:?}: other rows");
        assert_eq!(ran.code, Some(1));
        let without = ["refused: ", "no cells: 10 "].map(|why| ran.err.matches(why).count());
        assert_eq!(without.iter().sum::<usize>(), unread, "{}", ran.err);
    }
}

#[test]
fn crops_without_cells_do_not_end_the_run() {
    let folder = Folder::new("cells-none");
    folder.write("lone", &lone());
    folder.write("white", &white());
    folder.write("text", b"no crop");
    let ran = folder.bullseye(&["cells", "white", "text", "missing", "lone"]);
    assert_eq!(
        ran.text(),
        format!("lone:\n{}", drawn(&judged_cells(&lone()).1))
    );
    let complaints = "\
bullseye: white: no cells: 10 no pixel is black
bullseye: text: refused: 1 no crop header
bullseye: missing: no such file
";
    assert_eq!((ran.code, ran.err.as_str()), (Some(1), complaints));
    for (name, complaint) in [
        ("white", "bullseye: white: no cells: 10 no pixel is black\n"),
        ("text", "bullseye: text: refused: 1 no crop header\n"),
        ("missing", "bullseye: missing: no such file\n"),
    ] {
        folder.write("old", b"as it was");
        for args in [&["cells", name][..], &["cells", "--svg", name, "-o", "old"]] {
            let ran = folder.bullseye(args);
            assert_eq!((ran.code, ran.text().as_str()), (Some(1), ""), "{args:?}");
            assert_eq!(ran.err, complaint);
        }
        assert_eq!(folder.read("old"), b"as it was");
    }
}

#[test]
fn folders_and_lists() {
    let folder = Folder::new("cells-many");
    fs::create_dir_all(folder.0.join("all/inner")).expect("a folder is made");
    folder.write("all/b", &lone());
    folder.write("all/inner/c", &moved(&lone(), 0, 2));
    let rows = hex(&judged_cells(&lone()).1);
    let expected = format!("all/b:\n{rows}all/inner/c:\n{rows}");
    let ran = folder.bullseye(&["cells", "all", "--hex"]);
    assert_eq!((ran.code, ran.err.as_str()), (Some(0), ""));
    assert_eq!(ran.text(), expected);
    let list = folder.bullseye_reading(&["cells", "--hex", "-0"], b"all/b\0all/inner/c");
    assert_eq!((list.code, list.text()), (Some(0), expected));
}

/// White columns and the first two white rows change nothing; from the third on, rows are read too high up, which is told.
#[test]
fn white_above_a_symbol() {
    let folder = Folder::new("cells-high");
    let (_, rows) = judged_cells(&lone());
    for (left, top, held) in [(0, 0, 0), (40, 2, 0), (0, 3, 1), (7, 20, 5), (0, 131, 33)] {
        let crop = moved(&lone(), left, top);
        folder.write("moved", &crop);
        let ran = folder.bullseye(&["cells", "moved"]);
        let (_, read) = judged_cells(&crop);
        assert_eq!((ran.code, ran.text()), (Some(0), drawn(&read)));
        assert_eq!(read[..33 - held], rows[..33 - held], "{top}");
        // All those come from one row of pixels, odd ones half a cell further right: each is as the second one before it.
        let mut alike = read[33 - held..].windows(3);
        assert!(alike.all(|rows| rows[0] == rows[2]), "{top}");
        let note = match held {
            0 => String::new(),
            _ => format!(
                "bullseye: moved: rows of cells are read too high up ({held} of 33): \
the first black row is {top}, not 0; cut the crop at the top\n"
            ),
        };
        assert_eq!(ran.err, note);
        let picture = folder.bullseye(&["cells", "--svg", "moved"]);
        assert_eq!(hexagons(&picture.text()), read);
        let told = picture.text().matches("read too high up").count();
        assert_eq!(told, usize::from(held > 0), "{top}");
        assert_eq!((picture.code, picture.err), (Some(0), note));
    }
}

/// The cells of a picture: a hexagon for each, at its place and of its colour.
fn hexagons(svg: &str) -> [u32; CELL_ROWS] {
    let mut cells = [0; CELL_ROWS];
    let mut seen = [0; CELL_ROWS];
    for (class, bit) in [("black", 1), ("white", 0)] {
        let path = elements(svg, &format!("path class=\"{class}\""))[0];
        for hexagon in value(path, "d").split_terminator('z') {
            let (place, _) = hexagon.split_once('l').expect("a line follows");
            let (x, y) = place[1..].split_once(' ').expect("x and y");
            let [x, y]: [f64; 2] = [x, y].map(|number| number.parse().expect("a number"));
            let row = ((y + 0.577) / 0.866).round() as usize;
            let column = (x - (row % 2) as f64 / 2.0) as usize;
            assert_eq!(seen[row] >> column & 1, 0, "{place}");
            inside(svg, x - 0.5, y);
            inside(svg, x + 0.5, y + 1.155);
            seen[row] |= 1 << column;
            cells[row] |= bit << column;
        }
    }
    assert_eq!(seen, [(1 << CELL_COLUMNS) - 1; CELL_ROWS]);
    cells
}

#[test]
fn a_picture_of_hexagons() {
    let folder = Folder::new("cells-svg");
    folder.write("a<b>&.crop", &lone());
    let ran = folder.bullseye(&["cells", "--svg", "a<b>&.crop", "-o", "svg"]);
    assert_eq!(
        (ran.code, ran.out.len(), ran.err.as_str()),
        (Some(0), 0, "")
    );
    let svg = String::from_utf8(folder.read("svg")).expect("it is text");
    well_formed(&svg);
    assert!(svg.contains("<title>a&lt;b&gt;&amp;.crop</title>"));
    assert_eq!(hexagons(&svg), judged_cells(&lone()).1);
    // The numbers of columns and rows, and two lines below.
    let texts = elements(&svg, "text ");
    assert_eq!(texts.len(), CELL_COLUMNS + CELL_ROWS + 2);
    for text in texts {
        let [x, y] = ["x", "y"].map(|name| value(text, name).parse().expect("a number"));
        inside(&svg, x, y);
    }
    let printed = folder.bullseye_reading(&["cells", "--svg", "-"], &lone());
    assert_eq!(hexagons(&printed.text()), hexagons(&svg));
}
