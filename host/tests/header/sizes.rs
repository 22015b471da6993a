//! The header's sizes and answers against what the library answers at the edges.
use super::constants::header;

/// A white crop file.
fn white(width: usize, height: usize) -> Vec<u8> {
    let (width, height) = (width as u32, height as u32);
    crops::pack(&vec![0; crops::image_words(width, height)], width, height)
}

/// The answer that has a name in the header.
fn named(name: &str) -> u32 {
    header()[&format!("ANSWER_{name}")].number as u32
}

#[test]
fn a_file_beyond_a_size_is_refused() {
    let header = header();
    let least = header["LEAST_SIDE"].number;
    let greatest = header["GREATEST_SIDE"].number;
    for (width, height) in [(least, least), (least, greatest), (greatest, least)] {
        assert_eq!(bullseye::check(&white(width, height)), 0);
    }
    let beyond = [(least - 1, least), (least, least - 1)];
    for (width, height) in beyond
        .into_iter()
        .chain([(greatest + 1, least), (least, greatest + 1)])
    {
        assert_eq!(bullseye::check(&white(width, height)), named("SIDES"));
    }
    // 20 words by 400 rows, and 21 by 381.
    let (bits, most) = (header["WORD_BITS"].number, header["MOST_WORDS"].number);
    assert_eq!(bullseye::check(&white(20 * bits, most / 20)), 0);
    assert_eq!(
        bullseye::check(&white(21 * bits, (most + 1) / 21)),
        named("TOO_LARGE")
    );
    let longest = white(greatest, most / (greatest / bits));
    assert_eq!(bullseye::check(&longest), 0);
    assert!(longest.len() < header["LONGEST"].number);
}

#[test]
fn a_damaged_file_or_buffer_is_refused() {
    let header = header();
    let good = white(33, 33);
    let bytes = header["HEADER_BYTES"].number;
    assert_eq!(bullseye::check(&good[..bytes - 1]), named("NO_HEADER"));
    let mut other = good.clone();
    other[0] ^= 0x30;
    assert_eq!(bullseye::check(&other), named("NO_HEADER"));
    assert_eq!(bullseye::check(&good[..bytes]), named("LENGTH"));
    let mut padded = good.clone();
    *padded.last_mut().expect("it has rows") = 1;
    assert_eq!(bullseye::check(&padded), named("PADDING"));
    let least = header["RECORD_WORDS"].number;
    for (records, answer) in [(least, named("NONE_FOUND")), (least - 1, named("BUFFER"))] {
        let (mut words, mut marks) = (vec![0; 33], vec![0; 33]);
        let mut records = vec![0; records];
        let report = bullseye::search_file(&good, &mut words, &mut records, &mut marks, false);
        assert_eq!(report.answer, answer);
    }
}

/// A checkerboard has a candidate nearly everywhere: the capacity shows in the number that was found.
#[test]
fn candidates_are_held_up_to_the_most() {
    let mut words = vec![0x5555_5555_5555_5555u64; 2000];
    for row in words.chunks_exact_mut(2).step_by(2) {
        row.fill(0xaaaa_aaaa_aaaa_aaaa);
    }
    let header = header();
    let most = header["MOST_CANDIDATES"].number;
    let mut records = vec![0; header["RECORD_WORDS"].number * (most + 9)];
    let mut marks = vec![0; words.len()];
    let report = bullseye::search_words(&words, 128, 1000, &mut records, &mut marks, false);
    assert_eq!(report.answer, named("TOO_MANY"));
    assert_eq!(report.found as usize, most + 1);
}

/// Cells are as many as the sizes say, and the answer of a white crop has its name.
#[test]
fn cells_are_of_their_size() {
    let header = header();
    let (rows, columns) = (header["CELL_ROWS"].number, header["CELL_COLUMNS"].number);
    let black = vec![(1 << 33) - 1; 33];
    for (length, answer) in [
        (rows, 0),
        (rows - 1, named("BUFFER")),
        (rows + 1, named("BUFFER")),
    ] {
        let mut cells = vec![7; length];
        assert_eq!(bullseye::cells_words(&black, 33, 33, &mut cells), answer);
        let word = if answer == 0 { (1 << columns) - 1 } else { 7 };
        assert_eq!(cells, vec![word; length]);
    }
    let (mut words, mut cells) = (vec![7; 33], vec![7; rows]);
    let answer = bullseye::cells_file(&white(33, 33), &mut words, &mut cells);
    assert_eq!(
        (answer, words, cells),
        (named("NO_BLACK"), vec![0; 33], vec![7; rows])
    );
}
