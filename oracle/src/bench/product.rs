//! The product: its check and its painting apart, as the crate `timed` has them for
//! this, and the public calls.

use super::{Band, Manner, Work};
use crate::as_text::{output_room, text_of};
use crate::layout::{room, ELEMENTS, FIRST_COUNT_WORD};
use crate::paint::paint;
use crate::pivotdawn::{self, Outcome, Planes, Written};
use crate::sheets::Sheet;
use std::hint::black_box;

extern "C" {
    /// The code of an image. A slice crosses as a pointer and a length.
    fn timed_check(image: *const u32, words: usize) -> u32;

    /// The painting of a band of an accepted image, without the check.
    fn timed_paint(
        image: *const u32,
        words: usize,
        first: usize,
        rows: usize,
        cells: *mut u32,
        cell_words: usize,
        scratch: *mut u32,
        scratch_words: usize,
    );

    fn timed_paint_coloured(
        image: *const u32,
        words: usize,
        first: usize,
        rows: usize,
        cells: *mut u32,
        cell_words: usize,
        colours: *mut u32,
        colour_words: usize,
        stamps: *mut u32,
        stamp_words: usize,
        scratch: *mut u32,
        scratch_words: usize,
    );
}

/// The code.
pub fn check(words: &[u32]) -> u32 {
    // SAFETY: the slice is lent for the call alone, with its own length; the callee
    // is proved to stay inside it.
    unsafe { timed_check(words.as_ptr(), words.len()) }
}

/// What paints a band.
#[derive(Clone, Copy)]
pub enum Call {
    /// The painting of an accepted image, without the check.
    Painting,
    /// The public call.
    Public,
    /// The public call that writes the band as text too.
    Text,
}

/// The buffers that are lent, for the largest band.
struct Lent {
    coloured: bool,
    cells: Vec<u32>,
    colours: Vec<u32>,
    stamps: Vec<u32>,
    scratch: Vec<u32>,
    output: Vec<u8>,
    /// How much of the output is the text of the last band.
    written: usize,
}

impl Lent {
    fn for_rows(words: &[u32], coloured: bool, rows: usize) -> Lent {
        let [cells, colours, stamps, scratch] = room(words, rows).map(|wanted| vec![0; wanted]);
        Lent {
            coloured,
            cells,
            colours,
            stamps,
            scratch,
            output: vec![0; output_room(words[0] as usize, rows, coloured)],
            written: 0,
        }
    }

    /// "Cells, colours and stamps need width × height words, scratch twice 01's element part
    /// besides its run part"
    fn for_sheet(words: &[u32], coloured: bool) -> Lent {
        let [cells, colours, stamps, scratch] = room(words, words[1] as usize);
        let elements = words[FIRST_COUNT_WORD + ELEMENTS] as usize;
        Lent {
            coloured,
            cells: vec![0; cells],
            colours: vec![0; colours],
            stamps: vec![0; stamps],
            scratch: vec![0; scratch + elements],
            output: Vec::new(),
            written: 0,
        }
    }

    /// The call for a whole sheet.
    fn paint_sheet(&mut self, image: &[u32], band: usize) {
        let planes = Planes {
            cells: &mut self.cells,
            colours: &mut self.colours,
            stamps: &mut self.stamps,
            scratch: &mut self.scratch,
        };
        let outcome = match self.coloured {
            false => pivotdawn::paint_sheet(image, band, planes.cells, planes.scratch),
            true => pivotdawn::paint_sheet_coloured(image, band, planes),
        };
        assert_eq!(outcome.code, 0, "a sheet of bench is refused");
    }

    fn paint_band(&mut self, call: Call, image: &[u32], band: (usize, usize)) {
        match call {
            Call::Painting => self.paint_checked(image, band),
            Call::Public => {
                let outcome = self.paint_publicly(image, band);
                assert_eq!(outcome.code, 0, "a sheet of bench is refused");
            }
            Call::Text => {
                let written = self.write_text(image, band);
                assert_eq!(written.code, 0, "a sheet of bench is refused");
                self.written = written.bytes as usize;
            }
        }
    }

    /// The buffers with just the room for a band, and the output.
    fn planes(&mut self, image: &[u32], rows: usize) -> (Planes<'_>, &mut [u8]) {
        let wanted = room(image, rows)[0];
        let planes = Planes {
            cells: &mut self.cells[..wanted],
            colours: &mut self.colours[..wanted],
            stamps: &mut self.stamps[..wanted],
            scratch: &mut self.scratch,
        };
        (planes, &mut self.output)
    }

    fn paint_publicly(&mut self, image: &[u32], (first, rows): (usize, usize)) -> Outcome {
        let coloured = self.coloured;
        let (planes, _) = self.planes(image, rows);
        match coloured {
            false => pivotdawn::paint(image, first, rows, planes.cells, planes.scratch),
            true => pivotdawn::paint_coloured(image, first, rows, planes),
        }
    }

    fn write_text(&mut self, image: &[u32], (first, rows): (usize, usize)) -> Written {
        let coloured = self.coloured;
        let (planes, out) = self.planes(image, rows);
        match coloured {
            false => pivotdawn::paint_text(image, first, rows, planes.cells, planes.scratch, out),
            true => pivotdawn::paint_text_coloured(image, first, rows, planes, out),
        }
    }

    /// The image is one that the check accepts, and the band is on its sheet.
    fn paint_checked(&mut self, image: &[u32], (first, rows): (usize, usize)) {
        let wanted = room(image, rows)[0];
        let cells = &mut self.cells[..wanted];
        let (colours, stamps) = (&mut self.colours[..wanted], &mut self.stamps[..wanted]);
        let scratch = &mut self.scratch[..];
        let (place, words) = (image.as_ptr(), image.len());
        // SAFETY: every slice is lent for the call alone, with its own length; the
        // callee is proved to stay inside them where the image is accepted, the band is
        // on the sheet and there is room, all of which `bench` has seen to.
        unsafe {
            match self.coloured {
                false => timed_paint(
                    place,
                    words,
                    first,
                    rows,
                    cells.as_mut_ptr(),
                    cells.len(),
                    scratch.as_mut_ptr(),
                    scratch.len(),
                ),
                true => timed_paint_coloured(
                    place,
                    words,
                    first,
                    rows,
                    cells.as_mut_ptr(),
                    cells.len(),
                    colours.as_mut_ptr(),
                    colours.len(),
                    stamps.as_mut_ptr(),
                    stamps.len(),
                    scratch.as_mut_ptr(),
                    scratch.len(),
                ),
            }
        }
    }
}

/// These bands of the sheet; the buffers are made before the time begins.
pub fn work(words: &[u32], manner: Manner, call: Call, bands: Vec<Band>) -> Work<'_> {
    let mut lent = Lent::for_rows(words, manner.coloured, manner.band.min(words[1] as usize));
    Box::new(move || {
        for rows in &bands {
            black_box(&mut lent).paint_band(call, black_box(words), *rows);
        }
    })
}

/// The whole sheet in one call; the buffers are made before the time begins.
pub fn sheet_work(words: &[u32], manner: Manner) -> Work<'_> {
    let mut lent = Lent::for_sheet(words, manner.coloured);
    Box::new(move || black_box(&mut lent).paint_sheet(black_box(words), manner.band))
}

/// A picture that differs from the original's, or a text of another, is not worth a time.
pub fn assert_painted_alike(sheet: &Sheet, manner: Manner) {
    let Manner { coloured, band } = manner;
    let words = &sheet.words;
    let original =
        paint(words, coloured, usize::MAX).unwrap_or_else(|why| panic!("a sheet of bench: {why}"));
    let [name, how] = [sheet.name, &manner.name()];
    let assert_alike = |cells: &[u32], colours: &[u32]| {
        let same_colours = !coloured || colours == original.colours;
        assert!(
            cells == original.cells && same_colours,
            "{name}, {how}: another picture"
        );
    };
    let colours = coloured.then_some(&original.colours[..]);
    let its_text = text_of(original.width, original.height, &original.cells, colours);
    for call in [Call::Painting, Call::Public, Call::Text] {
        let mut lent = Lent::for_rows(words, coloured, band.min(original.height));
        let [mut cells, mut colours] = [(); 2].map(|()| Vec::<u32>::new());
        let mut text = Vec::<u8>::new();
        for (first, rows) in manner.bands(words) {
            lent.paint_band(call, words, (first, rows));
            let painted = original.width * rows;
            cells.extend(&lent.cells[..painted]);
            colours.extend(&lent.colours[..painted]);
            text.extend(&lent.output[..lent.written]);
        }
        assert_alike(&cells, &colours);
        let same_text = !matches!(call, Call::Text) || text == its_text;
        assert!(same_text, "{name}, {how}: another text");
    }
    let mut lent = Lent::for_sheet(words, coloured);
    lent.paint_sheet(words, band);
    assert_alike(&lent.cells, &lent.colours);
}
