//! A number that the tables do not have.
use std::{error::Error, fmt};

/// A number that stands for nothing here: it comes from another version, or from a fault.
#[derive(Clone, Copy, Debug, PartialEq, Eq)]
pub struct Unknown {
    /// What the number should be.
    pub what: &'static str,
    pub number: u32,
}

impl fmt::Display for Unknown {
    fn fmt(&self, to: &mut fmt::Formatter<'_>) -> fmt::Result {
        write!(to, "unknown {}: {}", self.what, self.number)
    }
}

impl Error for Unknown {}

/// What is known; stops where it is not. For programs that test, which must not go on.
pub fn known<T>(result: Result<T, Unknown>) -> T {
    result.unwrap_or_else(|unknown| panic!("{unknown}"))
}
