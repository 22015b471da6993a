//! What the source takes from files and crates that are not here, and what its replacements call.

use super::point::Point;
use crate::sines::SINES;

/// Sine and cosine of a whole number of degrees, under the names that the source calls.
#[derive(Clone, Copy)]
pub struct Turn {
    sine: f32,
    cosine: f32,
}

impl Turn {
    pub fn of(degrees: f32) -> Self {
        let degree = degrees as usize;
        Self {
            sine: SINES[degree % 360],
            cosine: SINES[(degree + 90) % 360],
        }
    }

    pub fn sin(self) -> f32 {
        self.sine
    }

    pub fn cos(self) -> f32 {
        self.cosine
    }
}

/// The square as a product.
pub trait Square {
    fn square(self) -> Self;
}

impl Square for f64 {
    fn square(self) -> Self {
        self * self
    }
}

/// What a candidate came to: 0 no turn, or one of the three below.
pub const TURNED: u32 = 1;
pub const LOST: u32 = 2;
pub const ELLIPSE: u32 = 3;

/// Whether a candidate is checked for an ellipse, the scales tried for it, and the outcome.
#[derive(Clone, Copy, Default)]
pub struct Trace {
    pub ellipse: bool,
    pub scale: u32,
    pub outcome: u32,
}

/// The errors that the source names.
#[derive(Debug, Clone, PartialEq, Eq)]
pub struct Exceptions;

impl Exceptions {
    pub const NOT_FOUND: Self = Self;
    pub const ILLEGAL_STATE: Self = Self;

    pub fn illegal_argument_with<T: Into<String>>(_: T) -> Self {
        Self
    }
}

/// A row of bits, for parts of the image type that the search does not use.
pub struct BitArray(Vec<usize>);

#[allow(non_snake_case)]
impl BitArray {
    pub fn with_size(bits: usize) -> Self {
        Self(vec![0; bits.div_ceil(64)])
    }

    pub fn set(&mut self, bit: usize) {
        self.0[bit / 64] |= 1 << (bit % 64);
    }

    pub fn setBulk(&mut self, bit: usize, word: usize) {
        self.0[bit / 64] = word;
    }

    pub fn getBitArray(&self) -> &[usize] {
        &self.0
    }

    pub fn reverse(&mut self) {
        unimplemented!("the search does not reverse rows")
    }
}

/// The trait under which points of other types are read.
#[allow(dead_code)]
pub trait ResultPoint {
    fn get_x(&self) -> f32;
    fn get_y(&self) -> f32;
    fn to_rxing_result_point(&self) -> Point;
}

/// The two traits of crate `num` that the source names.
pub mod num {
    pub mod integer {
        pub trait Roots {
            fn sqrt(&self) -> Self;
        }

        impl Roots for u32 {
            fn sqrt(&self) -> Self {
                self.isqrt()
            }
        }
    }

    pub mod traits {
        pub mod real {
            use std::ops::{Add, Mul, Sub};

            pub trait Real:
                Copy
                + PartialOrd
                + Add<Output = Self>
                + Sub<Output = Self>
                + Mul<Output = Self>
            {
                fn abs(self) -> Self;
                fn floor(self) -> Self;
                fn hypot(self, other: Self) -> Self;
                fn max(self, other: Self) -> Self;
                fn round(self) -> Self;
            }

            impl Real for f32 {
                fn abs(self) -> Self {
                    self.abs()
                }

                fn floor(self) -> Self {
                    self.floor()
                }

                fn hypot(self, other: Self) -> Self {
                    self.hypot(other)
                }

                fn max(self, other: Self) -> Self {
                    self.max(other)
                }

                fn round(self) -> Self {
                    self.round()
                }
            }
        }
    }
}
