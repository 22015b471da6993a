//! Whether a program that reads text reads the address in examples/address.crop, blanked and redacted; needs Debian's tesseract-ocr.
use super::*;

/// White about the picture, in bytes and in rows.
const MARGIN: (usize, usize) = (4, 32);

/// A portable bitmap of a crop in which each row that the sweep does not read is filled from the one above it.
fn filled(file: &[u8]) -> Vec<u8> {
    let (width, height) = crops::dimensions(file).expect("it has a header");
    let row = crops::row_bytes(width);
    let side = vec![0; MARGIN.0];
    let above = vec![0; (row + 2 * MARGIN.0) * MARGIN.1];
    let rows = (0..height as usize).map(|y| {
        let from = crops::HEADER_BYTES + y / 2 * 2 * row;
        [&side, &file[from..from + row], &side].concat()
    });
    let (width, height) = (8 * (row + 2 * MARGIN.0), height as usize + 2 * MARGIN.1);
    let mut bitmap = format!("P4\n{width} {height}\n").into_bytes();
    bitmap.extend(&above);
    bitmap.extend(rows.flatten());
    bitmap.extend(&above);
    bitmap
}

/// What tesseract reads in a crop; none where it is not installed.
fn read_text(folder: &Folder, name: &str) -> Option<String> {
    folder.write("filled.pbm", &filled(&folder.read(name)));
    let ran = Command::new("tesseract")
        .args(["filled.pbm", "stdout", "--psm", "11", "--dpi", "150"])
        .current_dir(&folder.0)
        .output();
    match ran {
        Ok(output) => Some(String::from_utf8_lossy(&output.stdout).into_owned()),
        Err(_) => None,
    }
}

#[test]
fn an_address_is_read_in_a_blanked_crop_and_not_in_a_redacted_one() {
    let folder = Folder::new("ocr");
    folder.write("crop", &example("address.crop"));
    let Some(text) = read_text(&folder, "crop") else {
        println!("skipped: tesseract (Debian's tesseract-ocr) is not installed");
        return;
    };
    let address = "12 MILL LANE";
    assert!(text.contains(address), "{text}");
    for (args, shown) in [
        (&["blank", "crop", "-o", "out"][..], true),
        (&["redact", "crop", "-o", "out"], false),
        (&["redact", "--least", "crop", "-o", "out"], false),
    ] {
        assert_eq!(folder.bullseye(args).code, Some(0));
        let text = read_text(&folder, "out").expect("it is installed");
        let seen = match shown {
            true => text.contains(address),
            false => ["12", "MILL", "LANE"]
                .iter()
                .any(|word| text.contains(word)),
        };
        assert_eq!(seen, shown, "{args:?}: {text}");
    }
}
