//! The product's static library, called as safe Rust: slices in, numbers out. It needs
//! nothing else of this folder, so that a program can take this file over as it is and
//! link the library with `-l static=pivotdawn`.
//!
//! What is to be lent for a band: `width * rows` words of cells, as many of colours and
//! of stamps where it is coloured, and `8 * run capacity + elements` words of scratch,
//! all of which numbers stand in the image's header. Too little is refused with code
//! 12. For a band as text besides: `rows * (4 * width + 1)` bytes of output, or
//! `rows * (23 * width + 5)` where it is coloured; too little is refused with code 20. For
//! a whole sheet: `width * height` words of cells, colours and stamps, and
//! `8 * run capacity + 2 * elements` words of scratch. A refusal changes no lent word or
//! byte but the answer.
//!
//! A code is that of the first rule that is broken. The rules of the image are tried in
//! the order 1 to 5, 13 (a glyph is a control character), 6 to 10; those of painting, 11
//! (rows off the sheet, or a band height of 0) and 12, after them, and 20 last.
//! `include/pivotdawn.h` words each.
//!
//! Each unsafe block below is sound for the same reasons:
//!
//! - A slice crosses as its own pointer and length. So it is aligned, every word or byte of
//!   it is initialised, and it lies in one allocation; that of an empty slice is never
//!   followed.
//! - The callee is proved to read and write inside these lengths alone, for every
//!   image, row number and length: there is nothing that the caller has to see to.
//! - Of two slices of which one is lent mutably, none overlaps the other: the borrow
//!   checker sees to it at the safe function's own arguments.
//! - The callee keeps none of the pointers, has no state of its own, and neither
//!   unwinds nor calls back. So the borrows end with the call, and several threads may
//!   call at once.

mod c {
    extern "C" {
        pub fn pivotdawn_check(
            image: *const u32,
            words: usize,
            answer: *mut u64,
            answer_words: usize,
        ) -> u32;

        pub fn pivotdawn_paint(
            image: *const u32,
            words: usize,
            first: usize,
            rows: usize,
            cells: *mut u32,
            cell_words: usize,
            scratch: *mut u32,
            scratch_words: usize,
            answer: *mut u64,
            answer_words: usize,
        ) -> u32;

        pub fn pivotdawn_paint_coloured(
            image: *const u32,
            words: usize,
            first: usize,
            rows: usize,
            cells: *mut u32,
            cell_words: usize,
            colours: *mut u32,
            colour_words: usize,
            stamps: *mut u32,
            stamp_words: usize,
            scratch: *mut u32,
            scratch_words: usize,
            answer: *mut u64,
            answer_words: usize,
        ) -> u32;

        pub fn pivotdawn_paint_text(
            image: *const u32,
            words: usize,
            first: usize,
            rows: usize,
            cells: *mut u32,
            cell_words: usize,
            scratch: *mut u32,
            scratch_words: usize,
            out: *mut u8,
            out_bytes: usize,
            answer: *mut u64,
            answer_words: usize,
        ) -> u32;

        pub fn pivotdawn_paint_text_coloured(
            image: *const u32,
            words: usize,
            first: usize,
            rows: usize,
            cells: *mut u32,
            cell_words: usize,
            colours: *mut u32,
            colour_words: usize,
            stamps: *mut u32,
            stamp_words: usize,
            scratch: *mut u32,
            scratch_words: usize,
            out: *mut u8,
            out_bytes: usize,
            answer: *mut u64,
            answer_words: usize,
        ) -> u32;

        pub fn pivotdawn_paint_sheet(
            image: *const u32,
            words: usize,
            band: usize,
            cells: *mut u32,
            cell_words: usize,
            scratch: *mut u32,
            scratch_words: usize,
            answer: *mut u64,
            answer_words: usize,
        ) -> u32;

        pub fn pivotdawn_paint_sheet_coloured(
            image: *const u32,
            words: usize,
            band: usize,
            cells: *mut u32,
            cell_words: usize,
            colours: *mut u32,
            colour_words: usize,
            stamps: *mut u32,
            stamp_words: usize,
            scratch: *mut u32,
            scratch_words: usize,
            answer: *mut u64,
            answer_words: usize,
        ) -> u32;
    }
}

/// The check's answer: code 0 where the image is accepted.
#[derive(Clone, Copy, Debug, PartialEq, Eq)]
pub struct Answer {
    pub code: u32,
    /// Where the rule is broken; 0 where none is.
    pub place: u64,
    /// The runs on rows of the sheet; 0 on refusal.
    pub runs: u64,
}

/// Painting's answer: code 0 where the band, or the sheet, was painted.
#[derive(Clone, Copy, Debug, PartialEq, Eq)]
pub struct Outcome {
    pub code: u32,
    /// Where the rule is broken; 0 where none is.
    pub place: u64,
}

/// The answer of a band as text: code 0 where it was painted and written.
#[derive(Clone, Copy, Debug, PartialEq, Eq)]
pub struct Written {
    pub code: u32,
    /// Where the rule is broken; 0 where none is.
    pub place: u64,
    /// The bytes of the text, from the start of the output on; 0 on refusal.
    pub bytes: u64,
}

/// The buffers of a coloured band, or of a coloured sheet.
pub struct Planes<'a> {
    pub cells: &'a mut [u32],
    pub colours: &'a mut [u32],
    pub stamps: &'a mut [u32],
    pub scratch: &'a mut [u32],
}

/// Checks an image.
pub fn check(image: &[u32]) -> Answer {
    let mut answer = [0; 2];
    let code = check_into(image, &mut answer);
    let [place, runs] = answer;
    Answer { code, place, runs }
}

/// Paints `rows` rows from row `first` on, plain. The image is checked first.
pub fn paint(
    image: &[u32],
    first: usize,
    rows: usize,
    cells: &mut [u32],
    scratch: &mut [u32],
) -> Outcome {
    let mut place = [0];
    let code = paint_into(image, first, rows, cells, scratch, &mut place);
    let [place] = place;
    Outcome { code, place }
}

/// Paints `rows` rows from row `first` on, in colour. The image is checked first.
pub fn paint_coloured(image: &[u32], first: usize, rows: usize, planes: Planes<'_>) -> Outcome {
    let mut place = [0];
    let code = paint_coloured_into(image, first, rows, planes, &mut place);
    let [place] = place;
    Outcome { code, place }
}

/// Paints `rows` rows from row `first` on, plain, and writes them to `out` as UTF-8 text, each
/// row with a line feed at its end. The image is checked first.
pub fn paint_text(
    image: &[u32],
    first: usize,
    rows: usize,
    cells: &mut [u32],
    scratch: &mut [u32],
    out: &mut [u8],
) -> Written {
    let mut answer = [0; 2];
    let code = paint_text_into(image, first, rows, cells, scratch, out, &mut answer);
    let [place, bytes] = answer;
    Written { code, place, bytes }
}

/// The same in colour, with an ECMA-48 sequence wherever the colour changes.
pub fn paint_text_coloured(
    image: &[u32],
    first: usize,
    rows: usize,
    planes: Planes<'_>,
    out: &mut [u8],
) -> Written {
    let mut answer = [0; 2];
    let code = paint_text_coloured_into(image, first, rows, planes, out, &mut answer);
    let [place, bytes] = answer;
    Written { code, place, bytes }
}

/// Paints every row of the sheet, plain, `band` rows at a time. The image is checked once. A
/// band height above the sheet's is one band; 0 is refused with code 11, place 1.
pub fn paint_sheet(image: &[u32], band: usize, cells: &mut [u32], scratch: &mut [u32]) -> Outcome {
    let mut place = [0];
    let code = paint_sheet_into(image, band, cells, scratch, &mut place);
    let [place] = place;
    Outcome { code, place }
}

/// The same in colour.
pub fn paint_sheet_coloured(image: &[u32], band: usize, planes: Planes<'_>) -> Outcome {
    let mut place = [0];
    let code = paint_sheet_coloured_into(image, band, planes, &mut place);
    let [place] = place;
    Outcome { code, place }
}

// ---- As C has them: the code returned, the rest stored as far as there is room ----

/// Word 0 of the answer gets the place, word 1 the run count.
pub fn check_into(image: &[u32], answer: &mut [u64]) -> u32 {
    // SAFETY: the four reasons at the head of this file; the image is only read.
    unsafe {
        c::pivotdawn_check(
            image.as_ptr(),
            image.len(),
            answer.as_mut_ptr(),
            answer.len(),
        )
    }
}

/// Word 0 of the answer gets the place.
pub fn paint_into(
    image: &[u32],
    first: usize,
    rows: usize,
    cells: &mut [u32],
    scratch: &mut [u32],
    answer: &mut [u64],
) -> u32 {
    // SAFETY: the four reasons at the head of this file; the image is only read, and
    // cells, scratch and answer are borrowed mutably, each apart from all others. Rows
    // off the sheet are refused with code 11.
    unsafe {
        c::pivotdawn_paint(
            image.as_ptr(),
            image.len(),
            first,
            rows,
            cells.as_mut_ptr(),
            cells.len(),
            scratch.as_mut_ptr(),
            scratch.len(),
            answer.as_mut_ptr(),
            answer.len(),
        )
    }
}

/// Word 0 of the answer gets the place.
pub fn paint_coloured_into(
    image: &[u32],
    first: usize,
    rows: usize,
    planes: Planes<'_>,
    answer: &mut [u64],
) -> u32 {
    let Planes {
        cells,
        colours,
        stamps,
        scratch,
    } = planes;
    // SAFETY: the four reasons at the head of this file; the image is only read, and
    // the four planes and the answer are borrowed mutably, each apart from all others.
    // Rows off the sheet are refused with code 11.
    unsafe {
        c::pivotdawn_paint_coloured(
            image.as_ptr(),
            image.len(),
            first,
            rows,
            cells.as_mut_ptr(),
            cells.len(),
            colours.as_mut_ptr(),
            colours.len(),
            stamps.as_mut_ptr(),
            stamps.len(),
            scratch.as_mut_ptr(),
            scratch.len(),
            answer.as_mut_ptr(),
            answer.len(),
        )
    }
}

/// Word 0 of the answer gets the place, word 1 how many bytes were written.
pub fn paint_text_into(
    image: &[u32],
    first: usize,
    rows: usize,
    cells: &mut [u32],
    scratch: &mut [u32],
    out: &mut [u8],
    answer: &mut [u64],
) -> u32 {
    // SAFETY: the four reasons at the head of this file; the image is only read, and
    // cells, scratch, output and answer are borrowed mutably, each apart from all others.
    // Rows off the sheet are refused with code 11.
    unsafe {
        c::pivotdawn_paint_text(
            image.as_ptr(),
            image.len(),
            first,
            rows,
            cells.as_mut_ptr(),
            cells.len(),
            scratch.as_mut_ptr(),
            scratch.len(),
            out.as_mut_ptr(),
            out.len(),
            answer.as_mut_ptr(),
            answer.len(),
        )
    }
}

/// Word 0 of the answer gets the place, word 1 how many bytes were written.
pub fn paint_text_coloured_into(
    image: &[u32],
    first: usize,
    rows: usize,
    planes: Planes<'_>,
    out: &mut [u8],
    answer: &mut [u64],
) -> u32 {
    let Planes {
        cells,
        colours,
        stamps,
        scratch,
    } = planes;
    // SAFETY: the four reasons at the head of this file; the image is only read, and
    // the four planes, the output and the answer are borrowed mutably, each apart from all
    // others. Rows off the sheet are refused with code 11.
    unsafe {
        c::pivotdawn_paint_text_coloured(
            image.as_ptr(),
            image.len(),
            first,
            rows,
            cells.as_mut_ptr(),
            cells.len(),
            colours.as_mut_ptr(),
            colours.len(),
            stamps.as_mut_ptr(),
            stamps.len(),
            scratch.as_mut_ptr(),
            scratch.len(),
            out.as_mut_ptr(),
            out.len(),
            answer.as_mut_ptr(),
            answer.len(),
        )
    }
}

/// Word 0 of the answer gets the place.
pub fn paint_sheet_into(
    image: &[u32],
    band: usize,
    cells: &mut [u32],
    scratch: &mut [u32],
    answer: &mut [u64],
) -> u32 {
    // SAFETY: the four reasons at the head of this file; the image is only read, and
    // cells, scratch and answer are borrowed mutably, each apart from all others. Any band
    // height is answered: 0 is refused with code 11.
    unsafe {
        c::pivotdawn_paint_sheet(
            image.as_ptr(),
            image.len(),
            band,
            cells.as_mut_ptr(),
            cells.len(),
            scratch.as_mut_ptr(),
            scratch.len(),
            answer.as_mut_ptr(),
            answer.len(),
        )
    }
}

/// Word 0 of the answer gets the place.
pub fn paint_sheet_coloured_into(
    image: &[u32],
    band: usize,
    planes: Planes<'_>,
    answer: &mut [u64],
) -> u32 {
    let Planes {
        cells,
        colours,
        stamps,
        scratch,
    } = planes;
    // SAFETY: the four reasons at the head of this file; the image is only read, and
    // the four planes and the answer are borrowed mutably, each apart from all others. Any
    // band height is answered: 0 is refused with code 11.
    unsafe {
        c::pivotdawn_paint_sheet_coloured(
            image.as_ptr(),
            image.len(),
            band,
            cells.as_mut_ptr(),
            cells.len(),
            colours.as_mut_ptr(),
            colours.len(),
            stamps.as_mut_ptr(),
            stamps.len(),
            scratch.as_mut_ptr(),
            scratch.len(),
            answer.as_mut_ptr(),
            answer.len(),
        )
    }
}
