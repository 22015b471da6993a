//! The proved steps under safe names. A step that refuses its input answers none, and has changed nothing. And the clock.

pub mod clock;

use oracle::harness::steps::Image;

/// What a step answers to an input that it refuses.
const REFUSED: u32 = u32::MAX;

// A slice crosses as its pointer and its length, an array as its pointer, a float as its bits.
unsafe extern "C" {
    // width, height, row, columns
    fn step_count_row(
        words: *const u64,
        words_len: usize,
        marks: *mut u64,
        marks_len: usize,
        numbers: &[u32; 4],
    ) -> u32;

    // width, height, capacity
    fn step_find_concentric_circles(
        words: *const u64,
        words_len: usize,
        marks: *mut u64,
        marks_len: usize,
        records: *mut u32,
        records_len: usize,
        numbers: &[u32; 3],
    ) -> usize;

    fn step_calculate_center_point_std_dev(
        records: *const u32,
        records_len: usize,
        found: u32,
        out: &mut [u32; 4],
    ) -> u32;

    fn step_keep_and_rank(records: *mut u32, records_len: usize, found: u32) -> usize;

    fn step_guess_barcode_size_general(
        radius: u32,
        height_adjust: u64,
        circle_area: u64,
        height_final_adjust: u64,
        out: &mut [u32; 2],
    ) -> u32;

    // width, height, the centre's column and row, radius
    fn step_scaled_boundary(numbers: &[u32; 5], scale: u64, out: &mut [u32; 4]) -> u32;

    // width, height, the centre's column and row, radius, the cell's column and row
    fn step_adjust_point_alternate(numbers: &[u32; 7], scale: u64, out: &mut [u32; 2]) -> u32;

    // column and row of the centre, then of the point, and the degree
    fn step_get_point(numbers: &[u32; 5], out: &mut [u32; 2]);

    // the bits of each point's x and y
    fn step_find_center(numbers: &[u32; 6], out: &mut [u32; 2]);

    // width, height, the pixel's column and row
    fn step_try_get_area(
        words: *const u64,
        words_len: usize,
        marks: *mut u64,
        marks_len: usize,
        numbers: &[u32; 4],
    ) -> u32;

    // width, height, the centre's column and row
    fn step_find_width_at_degree(
        words: *const u64,
        words_len: usize,
        marks: *mut u64,
        marks_len: usize,
        numbers: &[u32; 4],
        degree: u32,
        out: &mut [u32; 5],
    ) -> u32;

    // width, height, the centre's column and row
    fn step_corrected_center(
        words: *const u64,
        words_len: usize,
        marks: *mut u64,
        marks_len: usize,
        numbers: &[u32; 4],
        out: &mut [u32; 2],
    ) -> u32;

    // width, height, the centre's column and row, radius
    fn step_box_symbol(
        words: *const u64,
        words_len: usize,
        marks: *mut u64,
        marks_len: usize,
        fields: &mut [u32; 40],
        numbers: &[u32; 5],
    ) -> u32;
}

fn answered(answer: u32) -> Option<u32> {
    (answer != REFUSED).then_some(answer)
}

/// What a step has written, unless it refused.
fn filled<const N: usize>(step: impl FnOnce(&mut [u32; N]) -> u32) -> Option<[u32; N]> {
    let mut out = [0; N];
    (step(&mut out) != REFUSED).then_some(out)
}

// SAFETY, in each function: a pointer and its length are one slice's, lent for the call; no two slices overlap.

/// The black pixels of a row's first columns, each read by the proved `get`.
pub fn count_row(image: Image, marks: &mut [u64], row: u32, columns: u32) -> Option<u32> {
    answered(unsafe {
        step_count_row(
            image.words.as_ptr(),
            image.words.len(),
            marks.as_mut_ptr(),
            marks.len(),
            &[image.width, image.height, row, columns],
        )
    })
}

/// The number of candidates of an image, which go into the record buffer.
pub fn find_concentric_circles(
    image: Image,
    marks: &mut [u64],
    records: &mut [u32],
    capacity: u32,
) -> Option<u32> {
    let found = unsafe {
        step_find_concentric_circles(
            image.words.as_ptr(),
            image.words.len(),
            marks.as_mut_ptr(),
            marks.len(),
            records.as_mut_ptr(),
            records.len(),
            &[image.width, image.height, capacity],
        )
    };
    answered(found as u32)
}

/// Deviation and mean of the centres of `found` records, each x then y.
pub fn calculate_center_point_std_dev(records: &[u32], found: u32) -> Option<[u32; 4]> {
    filled(|out| unsafe {
        step_calculate_center_point_std_dev(records.as_ptr(), records.len(), found, out)
    })
}

/// The number of records that are kept; the buffer is left as the step leaves it.
pub fn keep_and_rank(records: &mut [u32], found: u32) -> Option<u32> {
    answered(unsafe { step_keep_and_rank(records.as_mut_ptr(), records.len(), found) } as u32)
}

/// Width and height of a symbol.
pub fn guess_barcode_size_general(
    radius: u32,
    adjust: f64,
    area: f64,
    last: f64,
) -> Option<[u32; 2]> {
    filled(|out| unsafe {
        step_guess_barcode_size_general(
            radius,
            adjust.to_bits(),
            area.to_bits(),
            last.to_bits(),
            out,
        )
    })
}

/// Left, right, top, bottom of a scale.
pub fn scaled_boundary(
    centre: (u32, u32),
    radius: u32,
    (width, height): (u32, u32),
    scale: f64,
) -> Option<[u32; 4]> {
    let numbers = [width, height, centre.0, centre.1, radius];
    filled(|out| unsafe { step_scaled_boundary(&numbers, scale.to_bits(), out) })
}

/// A point of a scale's grid as a pixel.
pub fn adjust_point_alternate(
    centre: (u32, u32),
    radius: u32,
    (width, height): (u32, u32),
    scale: f64,
    (x, y): (u32, u32),
) -> Option<[u32; 2]> {
    let numbers = [width, height, centre.0, centre.1, radius, x, y];
    filled(|out| unsafe { step_adjust_point_alternate(&numbers, scale.to_bits(), out) })
}

/// The bits of a point turned about a centre.
pub fn get_point(centre: (u32, u32), (x, y): (u32, u32), degree: u32) -> [u32; 2] {
    let mut out = [0; 2];
    unsafe { step_get_point(&[centre.0, centre.1, x, y, degree], &mut out) };
    out
}

/// The bits of the centre of the circle through three points, which are given by theirs.
pub fn find_center([a, b, c]: [(u32, u32); 3]) -> [u32; 2] {
    let mut out = [0; 2];
    unsafe { step_find_center(&[a.0, a.1, b.0, b.1, c.0, c.1], &mut out) };
    out
}

/// The colour about a pixel: 0 white, 1 black, 2 outside.
pub fn try_get_area(image: Image, marks: &mut [u64], (x, y): (u32, u32)) -> Option<u32> {
    answered(unsafe {
        step_try_get_area(
            image.words.as_ptr(),
            image.words.len(),
            marks.as_mut_ptr(),
            marks.len(),
            &[image.width, image.height, x, y],
        )
    })
}

/// The steps of the walks to the left and to the right together, then the bits of their ends, each x then y.
pub fn find_width_at_degree(
    image: Image,
    marks: &mut [u64],
    (x, y): (u32, u32),
    degree: u32,
) -> Option<[u32; 5]> {
    filled(|out| unsafe {
        step_find_width_at_degree(
            image.words.as_ptr(),
            image.words.len(),
            marks.as_mut_ptr(),
            marks.len(),
            &[image.width, image.height, x, y],
            degree,
            out,
        )
    })
}

/// The corrected centre.
pub fn corrected_center(image: Image, marks: &mut [u64], (x, y): (u32, u32)) -> Option<[u32; 2]> {
    filled(|out| unsafe {
        step_corrected_center(
            image.words.as_ptr(),
            image.words.len(),
            marks.as_mut_ptr(),
            marks.len(),
            &[image.width, image.height, x, y],
            out,
        )
    })
}

/// The symbol about a centre, in words 26 to 39 of the record.
pub fn box_symbol(
    image: Image,
    marks: &mut [u64],
    fields: &mut [u32; 40],
    (x, y): (u32, u32),
    radius: u32,
) -> Option<u32> {
    answered(unsafe {
        step_box_symbol(
            image.words.as_ptr(),
            image.words.len(),
            marks.as_mut_ptr(),
            marks.len(),
            fields,
            &[image.width, image.height, x, y, radius],
        )
    })
}
