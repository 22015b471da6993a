//! `bullseye pbm`.
use super::*;

#[test]
fn a_crop_as_p4() {
    let folder = Folder::new("pbm-p4");
    folder.write("parcel", &parcel());
    let ran = folder.bullseye(&["pbm", "parcel"]);
    assert_eq!((ran.code, ran.err.as_str()), (Some(0), ""));
    assert_eq!(ran.out, [b"P4\n184 190\n", &parcel()[4..]].concat());
}

#[test]
fn a_crop_as_p1() {
    let folder = Folder::new("pbm-p1");
    folder.write("parcel", &parcel());
    let ran = folder.bullseye(&["pbm", "--plain", "parcel", "-o", "out"]);
    assert_eq!(
        (ran.code, ran.out.len(), ran.err.as_str()),
        (Some(0), 0, "")
    );
    let text = String::from_utf8(folder.read("out")).expect("it is text");
    assert!(text.lines().all(|line| line.len() <= 70));
    let digits = text.strip_prefix("P1\n184 190\n").expect("it has a header");
    let digits = digits.bytes().filter(|byte| *byte != b'\n');
    let black: Vec<bool> = digits.map(|byte| byte == b'1').collect();
    assert_eq!(black, pixels(&parcel()).2);
}

#[test]
fn a_refused_crop() {
    let folder = Folder::new("pbm-refused");
    let mut padded = white();
    padded[8] |= 1;
    let ran = folder.bullseye_reading(&["pbm", "-"], &padded);
    let complaint = "bullseye: -: refused: 5 a padding bit is 1\n";
    assert_eq!((ran.code, ran.out.len()), (Some(1), 0));
    assert_eq!(ran.err, complaint);
}
