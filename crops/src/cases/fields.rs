//! The `key=value` words of one side of a line.

use std::str::FromStr;

/// The longest buffer that is lent: far beyond what an entry takes, and no strain on memory.
const LONGEST: usize = 1 << 24;

/// Those of a left side that no call has asked for yet.
pub struct Fields<'a> {
    left: Vec<(&'a str, &'a str)>,
}

impl<'a> Fields<'a> {
    pub fn parse(words: impl Iterator<Item = &'a str>) -> Result<Self, String> {
        let mut fields = Fields { left: Vec::new() };
        for word in words {
            let (key, value) = word
                .split_once('=')
                .ok_or_else(|| format!("no key=value: {word}"))?;
            if fields.has(key) {
                return Err(format!("{key} is there twice"));
            }
            fields.left.push((key, value));
        }
        Ok(fields)
    }

    pub fn has(&self, key: &str) -> bool {
        self.left.iter().any(|(other, _)| *other == key)
    }

    /// The value of a key, which is taken out.
    pub fn take(&mut self, key: &str) -> Option<&'a str> {
        let place = self.left.iter().position(|(other, _)| *other == key)?;
        Some(self.left.remove(place).1)
    }

    pub fn needed(&mut self, key: &str) -> Result<&'a str, String> {
        self.take(key).ok_or_else(|| format!("no {key}="))
    }

    /// A number that may be left out.
    pub fn number<T: FromStr>(&mut self, key: &str) -> Result<Option<T>, String> {
        self.take(key).map(|value| number(key, value)).transpose()
    }

    pub fn needed_number<T: FromStr>(&mut self, key: &str) -> Result<T, String> {
        let value = self.needed(key)?;
        number(key, value)
    }

    /// The length of a buffer, which may be left out.
    pub fn length(&mut self, key: &str) -> Result<Option<usize>, String> {
        self.take(key).map(|value| length(key, value)).transpose()
    }

    pub fn needed_length(&mut self, key: &str) -> Result<usize, String> {
        let value = self.needed(key)?;
        length(key, value)
    }

    /// Five numbers, parted by commas.
    pub fn five(&mut self, key: &str) -> Result<[u64; 5], String> {
        let value = self.needed(key)?;
        numbers(key, value)
    }

    /// What is left is no key of the call.
    pub fn finish(self, call: &str) -> Result<(), String> {
        match self.left.first() {
            Some((key, _)) => Err(format!("{call} has no {key}= here")),
            None => Ok(()),
        }
    }
}

/// A decimal number without a sign.
pub fn number<T: FromStr>(key: &str, value: &str) -> Result<T, String> {
    let digits = !value.is_empty() && value.bytes().all(|byte| byte.is_ascii_digit());
    let number = digits.then(|| value.parse().ok()).flatten();
    number.ok_or_else(|| format!("{key}: no such number: {value}"))
}

/// The length of a buffer.
pub fn length(key: &str, value: &str) -> Result<usize, String> {
    match number(key, value)? {
        length @ 0..=LONGEST => Ok(length),
        _ => Err(format!("{key}: above {LONGEST}: {value}")),
    }
}

/// So many of them, parted by commas.
pub fn numbers<T: FromStr, const N: usize>(key: &str, value: &str) -> Result<[T; N], String> {
    let all: Result<Vec<T>, String> = value.split(',').map(|one| number(key, one)).collect();
    let wrong = |list: Vec<T>| format!("{key}: {} numbers, not {N}", list.len());
    all?.try_into().map_err(wrong)
}
