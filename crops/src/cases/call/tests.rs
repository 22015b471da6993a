//! Every call with every key is known, and nothing else is.

use super::*;

const LANES: &str =
    "lanes=8/4:1,2,3,4/0:0,0,0,0/0:0,0,0,0/9:0,0,0,0/1:7,0,0,0/0:0,0,0,0/0:0,0,0,0/2:5,6,0,0";

fn file_of(id: &str, kind: Option<u8>) -> File {
    let id = id.to_string();
    File { id, kind }
}

#[test]
fn all_calls_are_known() {
    for text in [
        "host file=a kind=2",
        "program file=a",
        "search file=a unpack=3 marks=3 records=40 ellipse=1 page=28 entry=archive kind=15",
        "search words=a size=1x4294967295 cut=0 flip=2111 marks=66 records=40 counts=right",
        "cells file=a unpack=1 cells=33",
        "cells words=a cells=33",
        "unpack file=a unpack=7",
        "fill words=a length=33",
        "update words=a counts=wrong:4:65535 x=1 y=2 black=1",
        "update words=a counts=len:0 x=4294967295 y=2 black=0",
        "add totals=1,2,3,4,5 answer=0 class=4",
        "charge totals=1000001,2,3,4,5 rates=1,2,3,4,100000",
        &format!("submit {LANES} lane=9 crop=7"),
        &format!("take {LANES}"),
    ] {
        Call::parse(text).unwrap_or_else(|problem| panic!("{text}: {problem}"));
    }
}

#[test]
fn keys_come_to_their_fields() {
    let unpack = 7;
    let file = file_of("a", Some(2));
    let call = Call::Unpack { file, unpack };
    assert_eq!(Call::parse("unpack unpack=7 kind=2 file=a"), Ok(call));
    let Ok(Call::Search(search)) = Call::parse("search words=b size=33x40 marks=1 records=2")
    else {
        panic!("a search");
    };
    let Image::Words(words) = search.image else {
        panic!("words");
    };
    assert_eq!((words.size, words.cut), (Some((33, 40)), None));
    assert_eq!((search.marks, search.records), (1, 2));
    assert_eq!((search.ellipse, search.page), (false, None));
    let Ok(Call::Take { lanes }) = Call::parse(&format!("take {LANES}")) else {
        panic!("a take");
    };
    assert_eq!(lanes.last, 8);
    assert_eq!(lanes.lanes[3], (9, [0; 4]));
    assert_eq!(lanes.lanes[7], (2, [5, 6, 0, 0]));
}

#[test]
fn other_lines_are_errors() {
    for (text, problem) in [
        ("", "unknown call: "),
        ("find file=a", "unknown call: find"),
        ("host", "no file="),
        ("host words=a", "no file="),
        ("host file=a file=b", "file is there twice"),
        ("host file=a kind=16", "kind: a number below 16 is needed"),
        ("host file=a kind=+1", "kind: no such number: +1"),
        ("host file=a unpack=3", "host has no unpack= here"),
        ("host  file=a", "no key=value: "),
        ("search marks=1 records=2", "no file= and no words="),
        ("search file=a marks=1 records=2", "no unpack="),
        ("search words=a records=2", "no marks="),
        (
            "search words=a marks=1 records=2 unpack=3",
            "search has no unpack= here",
        ),
        (
            "search words=a marks=1 records=2 kind=1",
            "search has no kind= here",
        ),
        ("search words=a marks=1 records=2 size=3", "size: no WxH"),
        (
            "search words=a marks=1 records=2 ellipse=2",
            "ellipse: 0 or 1 is needed",
        ),
        (
            "search words=a marks=1 records=2 entry=live",
            "entry: unknown: live",
        ),
        (
            "fill words=a length=4294967296000000000000",
            "length: no such number: 4294967296000000000000",
        ),
        (
            "fill words=a length=16777217",
            "length: above 16777216: 16777217",
        ),
        (
            "update words=a counts=left x=0 y=0 black=0",
            "counts: none of right, wrong:ROW:VALUE, len:N: left",
        ),
        (
            "add totals=1,2,3 answer=0 class=0",
            "totals: 3 numbers, not 5",
        ),
        ("take lanes=0/1:1,2,3,4", "lanes: 1 lanes, not 8"),
    ] {
        assert_eq!(Call::parse(text), Err(problem.to_string()), "{text}");
    }
}
