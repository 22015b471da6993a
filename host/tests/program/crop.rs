//! `bullseye crop`, and `bullseye pbm` back.
use super::*;

/// The crop of a picture that is one.
fn made(folder: &Folder, picture: &[u8]) -> Vec<u8> {
    let ran = folder.bullseye_reading(&["crop", "-"], picture);
    assert_eq!((ran.code, ran.err.as_str()), (Some(0), ""));
    assert_eq!(bullseye::check(&ran.out), 0);
    ran.out
}

/// Why a picture is none.
fn refused(folder: &Folder, picture: &[u8]) -> String {
    let ran = folder.bullseye_reading(&["crop", "-"], picture);
    assert_eq!((ran.code, ran.out.len()), (Some(1), 0), "{}", ran.err);
    let complaint = ran
        .err
        .strip_prefix("bullseye: -: ")
        .expect("it names the file");
    complaint.trim_end().to_owned()
}

/// A crop with noise of its own for each width.
fn noise(width: u32, height: u32) -> Vec<u8> {
    let mut words = vec![0; crops::image_words(width, height)];
    let mut state = 0x9e37_79b9_7f4a_7c15 ^ u64::from(width);
    for y in 0..height {
        for x in 0..width {
            state ^= state << 13;
            state ^= state >> 7;
            state ^= state << 17;
            if state & 1 != 0 {
                crops::set_pixel(&mut words, width, x, y);
            }
        }
    }
    crops::pack(&words, width, height)
}

#[test]
fn there_and_back() {
    let folder = Folder::new("crop-back");
    let sizes = (33..=72).map(|width| (width, 33 + width % 7));
    for (width, height) in sizes.chain([(2048, 250), (250, 2000), (33, 2048), (2047, 33)]) {
        let crop = noise(width, height);
        folder.write("crop", &crop);
        for plain in [&[][..], &["--plain"]] {
            let picture = folder.bullseye(&[&["pbm", "crop"], plain].concat()).out;
            assert_eq!(made(&folder, &picture), crop, "{width} by {height}");
            folder.write("picture", &picture);
            let ran = folder.bullseye(&["crop", "picture", "-o", "again"]);
            assert_eq!((ran.code, ran.out.len()), (Some(0), 0));
            assert_eq!(folder.read("again"), crop);
            let again = folder.bullseye(&[&["pbm", "again"], plain].concat()).out;
            assert_eq!(again, picture);
        }
    }
}

#[test]
fn blanks_and_comments_of_a_plain_picture() {
    let folder = Folder::new("crop-plain");
    let crop = noise(33, 34);
    let digits: Vec<u8> = pixels(&crop)
        .2
        .iter()
        .map(|&b| b'0' + u8::from(b))
        .collect();
    let packed = [b"P1 33 34 ", &digits[..]].concat();
    assert_eq!(made(&folder, &packed), crop);
    assert_eq!(
        made(&folder, &[&packed[..], b"\nany junk #"].concat()),
        crop
    );
    let mut spread = b"P1# made by hand\n#\r\t33 # wide\n\r\n34#tall\n".to_vec();
    for (place, digit) in digits.iter().enumerate() {
        spread.push(*digit);
        spread.extend(match place % 5 {
            0 => &b" "[..],
            1 => b"\t\r\n",
            2 => b"# 0 1 0\n",
            3 => b"#\r",
            _ => b"",
        });
    }
    assert_eq!(made(&folder, &spread), crop);
}

#[test]
fn comments_and_fill_bits_of_a_raw_picture() {
    let folder = Folder::new("crop-raw");
    let crop = noise(33, 34);
    let mut rows = crop[4..].to_vec();
    for last in rows.iter_mut().skip(4).step_by(5) {
        *last |= 0x7f;
    }
    for header in [
        "P4\n33 34\n",
        "P4 33\t34\r",
        "P4\n# a\n33# b\n34 ",
        "P4\n33 34# c\n",
    ] {
        let picture = [header.as_bytes(), &rows].concat();
        assert_eq!(made(&folder, &picture), crop, "{header}");
    }
    // The pixels may begin with what a comment begins with.
    rows[0] = b'#';
    let made = made(&folder, &[b"P4 33 34\n", &rows[..]].concat());
    assert_eq!(made[4], b'#');
}

#[test]
fn only_the_first_picture() {
    let folder = Folder::new("crop-first");
    folder.write("white", &white());
    let picture = folder.bullseye(&["pbm", "white"]).out;
    let ran = folder.bullseye_reading(&["crop", "-"], &[&picture[..], &picture].concat());
    assert_eq!((ran.code, ran.out), (Some(0), white()));
    let complaint = "bullseye: -: only its first picture is taken; there is more in the file\n";
    assert_eq!(ran.err, complaint);
}

#[test]
fn dimensions_that_no_crop_has() {
    let folder = Folder::new("crop-size");
    let size =
        |width: &str, height: &str| refused(&folder, format!("P4 {width} {height}\n").as_bytes());
    assert_eq!(size("32", "33"), "width 32 is outside 33 to 2048");
    assert_eq!(size("33", "0"), "height 0 is outside 33 to 2048");
    assert_eq!(size("2049", "33"), "width 2049 is outside 33 to 2048");
    assert_eq!(size("33", "2049"), "height 2049 is outside 33 to 2048");
    let long = "9".repeat(50);
    assert!(size(&long, "33").ends_with(" is outside 33 to 2048"));
    let words = "2048 by 251 pixels are 8032 words, more than 8000";
    assert_eq!(size("2048", "251"), words);
    assert_eq!(size("33", "33"), "it ends before its last row does");
}

#[test]
fn what_is_no_bitmap() {
    let folder = Folder::new("crop-none");
    let cases: [(&[u8], &str); 9] = [
        (b"", "no portable bitmap: it begins with neither P1 nor P4"),
        (b"P", "no portable bitmap: it begins with neither P1 nor P4"),
        (
            b"\x89PNG",
            "no portable bitmap: it begins with neither P1 nor P4",
        ),
        (
            b"P5 33 33 255\n",
            "a grey or colour picture; only P1 and P4 have one bit a pixel",
        ),
        (b"P1", "it ends before its width does"),
        (b"P4 33 #", "it ends before its height does"),
        (b"P1 -33 33 ", "its width is no decimal number"),
        (b"P1 33 33x ", "its height is no decimal number"),
        (
            b"P1 33 33 012",
            "the pixel in column 2 of row 0 is not 0 or 1",
        ),
    ];
    for (picture, reason) in cases {
        assert_eq!(refused(&folder, picture), reason);
    }
    let short = [&b"P1 33 33 "[..], &[b'0'; 33 * 33 - 1]].concat();
    assert_eq!(refused(&folder, &short), "it ends before its last row does");
    let endless = [&b"P1 33 33 "[..], &vec![b' '; 9 << 20]].concat();
    let reason = "its last row is not within the first 8388608 bytes";
    assert_eq!(refused(&folder, &endless), reason);
}
