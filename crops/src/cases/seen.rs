//! What is seen after a call: the right side of a line.

use std::fmt;

/// What is seen, in the order in which it is printed.
#[derive(Clone, Copy, Debug, PartialEq, Eq, PartialOrd, Ord)]
pub enum Key {
    Answer,
    Found,
    Kept,
    Marked,
    Mean,
    Words,
    Marks,
    Records,
    Cells,
    Counts,
    Page,
    Lines,
    Text,
    Totals,
    Cents,
    Lanes,
    Taken,
}

/// Each key's name.
const NAMES: [(Key, &str); 17] = [
    (Key::Answer, "answer"),
    (Key::Found, "found"),
    (Key::Kept, "kept"),
    (Key::Marked, "marked"),
    (Key::Mean, "mean"),
    (Key::Words, "words"),
    (Key::Marks, "marks"),
    (Key::Records, "records"),
    (Key::Cells, "cells"),
    (Key::Counts, "counts"),
    (Key::Page, "page"),
    (Key::Lines, "lines"),
    (Key::Text, "text"),
    (Key::Totals, "totals"),
    (Key::Cents, "cents"),
    (Key::Lanes, "lanes"),
    (Key::Taken, "taken"),
];

/// Keys with their values, in the order of the keys.
#[derive(Clone, Debug, Default, PartialEq, Eq)]
pub struct Seen(Vec<(Key, String)>);

impl Seen {
    /// A right side; its keys may stand in any order.
    pub fn parse(text: &str) -> Result<Seen, String> {
        let mut seen = Seen::default();
        for word in text.split(' ').filter(|_| !text.is_empty()) {
            let (name, value) = word
                .split_once('=')
                .ok_or_else(|| format!("no key=value: {word}"))?;
            let known = NAMES.iter().find(|(_, other)| *other == name);
            let (key, _) = known.ok_or_else(|| format!("nothing seen is called {name}"))?;
            if seen.0.iter().any(|(other, _)| other == key) {
                return Err(format!("{name} is there twice"));
            }
            seen = seen.with(*key, value);
        }
        Ok(seen)
    }

    /// The same and one value more.
    pub fn with(mut self, key: Key, value: impl fmt::Display) -> Seen {
        let place = self.0.partition_point(|(other, _)| *other < key);
        self.0.insert(place, (key, value.to_string()));
        self
    }

    /// The same and a buffer: its length and its hash.
    pub fn buffer(self, key: Key, length: usize, hash: u64) -> Seen {
        self.with(key, format!("{length}:{hash:016x}"))
    }
}

impl fmt::Display for Seen {
    fn fmt(&self, to: &mut fmt::Formatter<'_>) -> fmt::Result {
        let name = |key: Key| NAMES[key as usize].1;
        let words: Vec<_> = (self.0.iter())
            .map(|(key, value)| format!("{}={value}", name(*key)))
            .collect();
        to.write_str(&words.join(" "))
    }
}

#[cfg(test)]
mod tests {
    use super::*;

    #[test]
    fn each_key_stands_at_its_place() {
        for (place, (key, name)) in NAMES.iter().enumerate() {
            assert_eq!(*key as usize, place);
            let text = format!("{name}=1");
            assert_eq!(Seen::parse(&text).unwrap().to_string(), text);
        }
    }

    #[test]
    fn the_order_does_not_matter() {
        let seen = Seen::parse("kept=0 answer=8 marks=33:00").unwrap();
        assert_eq!(seen.to_string(), "answer=8 kept=0 marks=33:00");
        let hash = Seen::default().buffer(Key::Page, 2, 255);
        assert_eq!(hash.to_string(), "page=2:00000000000000ff");
        assert_eq!(Seen::parse(""), Ok(Seen::default()));
    }

    #[test]
    fn other_words_are_errors() {
        for text in [
            "answer",
            "answer=1 answer=1",
            "number=1",
            "answer=1  found=0",
        ] {
            assert!(Seen::parse(text).is_err(), "{text}");
        }
    }
}
