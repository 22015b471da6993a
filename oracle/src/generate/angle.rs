//! Sine and cosine of whole degrees by basic operations, the same on every machine.

const DEGREE: f64 = std::f64::consts::PI / 180.0;

/// Taylor sum for up to 45 degrees, from the last term to the first.
fn series(square: f64, first: u32) -> f64 {
    let mut sum = 1.0;
    for k in (1..=9).rev() {
        let n = (2 * k + first) as f64;
        sum = 1.0 - square / (n * (n - 1.0)) * sum;
    }
    sum
}

fn sine_to_45(degree: u32) -> f64 {
    let x = degree as f64 * DEGREE;
    x * series(x * x, 1)
}

fn cosine_to_45(degree: u32) -> f64 {
    let x = degree as f64 * DEGREE;
    series(x * x, 0)
}

pub fn sine(degree: u32) -> f64 {
    match degree % 360 {
        d @ 0..=45 => sine_to_45(d),
        d @ 46..=90 => cosine_to_45(90 - d),
        d @ 91..=179 => sine(180 - d),
        180 => 0.0,
        d => -sine(d - 180),
    }
}

pub fn cosine(degree: u32) -> f64 {
    sine(degree % 360 + 90)
}
