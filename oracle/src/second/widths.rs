//! The width test of eleven runs.

pub(super) const EVEN_RUNS: [usize; 6] = [0, 2, 4, 6, 8, 10];
pub(super) const ODD_RUNS: [usize; 4] = [1, 3, 7, 9];

/// `validate_bullseye_widths`: ten of the eleven runs against the sums of their kind.
pub(super) fn widths_pass(runs: &[u32; 11]) -> bool {
    let even_sum = sum_of_runs(runs, &EVEN_RUNS);
    let odd_sum = sum_of_runs(runs, &ODD_RUNS);
    for index in EVEN_RUNS {
        if !width_passes(runs[index], even_sum) {
            return false;
        }
    }
    for index in ODD_RUNS {
        if !width_passes(runs[index], odd_sum) {
            return false;
        }
    }
    true
}

/// The sum of some of the runs.
pub(super) fn sum_of_runs(runs: &[u32; 11], indices: &[usize]) -> u32 {
    let mut sum = 0;
    for &index in indices {
        sum += runs[index];
    }
    sum
}

/// A run is more than a tenth and less than three tenths of the sum.
fn width_passes(run: u32, sum: u32) -> bool {
    sum < 10 * run && 10 * run < 3 * sum
}
