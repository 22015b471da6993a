//! The proved lines of a run against the judge's own, and what is left in the buffer: past the text, and where there is no room.
use bullseye::{Report, lines, put_lines};
use crops::{RECORD_WORDS, text_room};

/// Words of any size, from a small generator.
fn words(count: usize, seed: u64) -> Vec<u32> {
    let mut state = seed;
    let mut next = || {
        state = state
            .wrapping_mul(6364136223846793005)
            .wrapping_add(1442695040888963407);
        let word = (state >> 32) as u32;
        word >> (word % 32)
    };
    (0..count).map(|_| next()).collect()
}

/// Records whose rotation is a whole number of degrees, as a search leaves it.
fn records(count: usize, seed: u64) -> Vec<u32> {
    let mut words = words(count * RECORD_WORDS, seed);
    for record in words.chunks_exact_mut(RECORD_WORDS) {
        let place = crops::places::ROTATION;
        record[place] = ((record[place] % 360) as f32).to_bits();
    }
    words
}

fn report(kept: u32, seed: u64) -> Report {
    let numbers = words(3, seed);
    Report {
        answer: numbers[0],
        found: numbers[1],
        kept,
        marked: numbers[2],
    }
}

#[test]
fn lines_are_the_judges() {
    for seed in 0..300 {
        let kept = seed as u32 % 7;
        let (report, records) = (report(kept, seed), records(kept as usize, !seed));
        let judged = oracle::lines::of_report(report, &records);
        assert_eq!(String::from_utf8(lines(report, &records)), Ok(judged));
    }
}

#[test]
fn the_longest_lines_fit() {
    let report = Report {
        answer: u32::MAX,
        found: u32::MAX,
        kept: 2,
        marked: u32::MAX,
    };
    let mut records = vec![u32::MAX; 2 * RECORD_WORDS];
    for record in records.chunks_exact_mut(RECORD_WORDS) {
        record[crops::places::ROTATION] = 16_777_216_f32.to_bits();
    }
    let judged = oracle::lines::of_report(report, &records);
    assert_eq!(lines(report, &records), judged.as_bytes());
}

#[test]
fn what_stands_past_the_text_stays() {
    let (report, records) = (report(3, 5), records(3, 6));
    let expected = lines(report, &records);
    let mut text = vec![0xa5; text_room(3) + 9];
    assert_eq!(put_lines(report, &records, &mut text), expected.len());
    assert_eq!(text[..expected.len()], expected);
    assert!(text[expected.len()..].iter().all(|&byte| byte == 0xa5));
}

#[test]
fn without_room_nothing_is_written() {
    let (report, records) = (report(3, 7), records(3, 8));
    let mut text = vec![0xa5; text_room(3)];
    let short = text_room(3) - 1;
    assert_eq!(put_lines(report, &records, &mut text[..short]), 0);
    assert_eq!(put_lines(report, &records[1..], &mut text), 0);
    let most = Report {
        kept: u32::MAX,
        ..report
    };
    assert_eq!(put_lines(most, &records, &mut text), 0);
    assert_eq!(lines(most, &records), []);
    assert!(text.iter().all(|&byte| byte == 0xa5));
}
