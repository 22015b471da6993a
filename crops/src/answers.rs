//! The answers: each number with its meaning, and whether it refuses the input.
use crate::Unknown;

/// What an answer says of its input.
#[derive(Clone, Copy, Debug, PartialEq, Eq)]
pub enum Kind {
    /// The image was searched: counts, records and marks are those of the search.
    Searched,
    /// The file or the image is refused: counts are 0, no buffer has changed.
    RefusedImage,
    /// A lent buffer is refused, with the same effect.
    RefusedBuffer,
}

/// An answer of a search.
#[derive(Clone, Copy, Debug, PartialEq, Eq)]
pub struct Answer {
    pub number: u32,
    pub meaning: &'static str,
    pub kind: Kind,
}

impl Answer {
    pub const fn refused(&self) -> bool {
        !matches!(self.kind, Kind::Searched)
    }
}

const fn row(number: u32, meaning: &'static str, kind: Kind) -> Answer {
    Answer {
        number,
        meaning,
        kind,
    }
}

/// Every answer of a search, in the order of the numbers.
pub const ANSWERS: &[Answer] = &[
    row(0, "candidates are kept", Kind::Searched),
    row(1, "no crop header", Kind::RefusedImage),
    row(2, "width or height outside 33 to 2,048", Kind::RefusedImage),
    row(3, "more than 8,000 words", Kind::RefusedImage),
    row(
        4,
        "length does not match the dimensions",
        Kind::RefusedImage,
    ),
    row(5, "a padding bit is 1", Kind::RefusedImage),
    row(6, "a buffer of the wrong length", Kind::RefusedBuffer),
    row(7, "more candidates than the capacity", Kind::Searched),
    row(8, "no candidate is found", Kind::Searched),
    row(9, "every candidate is set aside", Kind::Searched),
];

/// What `check`'s 0 says: the file would be searched.
pub const ACCEPTED: &str = "accepted";

/// What 0 says of cells.
pub const READ: &str = "the cells are read";

/// The answer that cells alone have: the image is accepted, and the cells are as they were.
pub const BLANK: u32 = 10;

/// The answer of a search with a number.
pub fn answer(number: u32) -> Result<&'static Answer, Unknown> {
    let what = "answer";
    (ANSWERS.iter())
        .find(|answer| answer.number == number)
        .ok_or(Unknown { what, number })
}

/// What a search's answer says.
pub fn meaning(number: u32) -> Result<&'static str, Unknown> {
    answer(number).map(|answer| answer.meaning)
}

/// What a number of `check` says; it gives 0 and the numbers that refuse a file.
pub fn check_meaning(number: u32) -> Result<&'static str, Unknown> {
    let what = "number of a check";
    match answer(number) {
        _ if number == 0 => Ok(ACCEPTED),
        Ok(answer) if answer.kind == Kind::RefusedImage => Ok(answer.meaning),
        _ => Err(Unknown { what, number }),
    }
}

/// What an answer of cells says: 0, the numbers that refuse an image or a buffer, and [`BLANK`].
pub fn cells_meaning(number: u32) -> Result<&'static str, Unknown> {
    let what = "answer of cells";
    match answer(number) {
        _ if number == 0 => Ok(READ),
        _ if number == BLANK => Ok("no pixel is black"),
        Ok(answer) if answer.refused() => Ok(answer.meaning),
        _ => Err(Unknown { what, number }),
    }
}

#[cfg(test)]
mod tests {
    use super::*;

    #[test]
    fn each_number_stands_at_its_place_and_others_are_unknown() {
        for (number, row) in (0..).zip(ANSWERS) {
            assert_eq!(answer(number), Ok(row));
            assert_eq!(row.refused(), (1..=6).contains(&number));
        }
        for number in [ANSWERS.len() as u32, 14, u32::MAX] {
            let unknown = answer(number).unwrap_err();
            assert_eq!(unknown.to_string(), format!("unknown answer: {number}"));
        }
    }

    #[test]
    fn a_check_gives_no_answer_of_a_search() {
        assert_eq!(check_meaning(0), Ok("accepted"));
        assert_eq!(check_meaning(5), Ok("a padding bit is 1"));
        for number in [6, 7, 8, 9, 10] {
            let unknown = check_meaning(number).unwrap_err().to_string();
            assert_eq!(unknown, format!("unknown number of a check: {number}"));
        }
    }

    #[test]
    fn cells_have_an_answer_of_their_own_and_none_of_a_search() {
        assert_eq!(cells_meaning(0), Ok(READ));
        assert_eq!(cells_meaning(6), Ok("a buffer of the wrong length"));
        assert_eq!(cells_meaning(BLANK), Ok("no pixel is black"));
        assert!(answer(BLANK).is_err());
        for number in [7, 8, 9, 11] {
            let unknown = cells_meaning(number).unwrap_err().to_string();
            assert_eq!(unknown, format!("unknown answer of cells: {number}"));
        }
    }
}
