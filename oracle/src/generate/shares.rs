//! Families by their shares.

use super::random::Random;

/// A family of images: its name, its share of 100, and its maker.
pub type Family<T> = (&'static str, u32, fn(&mut Random) -> T);

/// The names of families.
pub const fn names<T, const N: usize>(makers: &[Family<T>; N]) -> [&'static str; N] {
    let mut all = [""; N];
    let mut k = 0;
    while k < N {
        all[k] = makers[k].0;
        k += 1;
    }
    all
}

/// The place of the family that the next draw picks.
pub fn picked<T>(random: &mut Random, makers: &[Family<T>]) -> usize {
    let mut left = random.below(100);
    let mut at = 0;
    while left >= makers[at].1 {
        left -= makers[at].1;
        at += 1;
    }
    at
}
