//! Bands of an image that painting is asked for, as cells alone or as text too, and whole
//! sheets in one call; and what must be answered: code and place, and every word of each lent
//! buffer; of a text, how many bytes were written, and every byte of the output. The check's
//! refusals come from the slow check, 11, 12 and 20 and all that is not painted from the
//! documents' own words, cells and colours from the original, and the text of them from
//! `as_text.rs`. Whoever asks, the program or the library, is held against this.

use crate::as_text::{output_room, text_of};
use crate::layout::{room, sheet_room};
use crate::paint::{paint, paint_both, Sheet};
use crate::slow_check::{slow_check, Answer};
use std::rc::Rc;

/// The buffers by their places in refusal 12, less one.
pub const CELLS: usize = 0;
pub const COLOURS: usize = 1;
pub const STAMPS: usize = 2;
pub const SCRATCH: usize = 3;
pub const BUFFER_NAMES: [&str; 4] = ["cells", "colours", "stamps", "scratch"];

/// The kinds of requests: a public call of painting for each.
pub const KINDS: [&str; 6] = [
    "plain",
    "coloured",
    "plain text",
    "coloured text",
    "plain sheet",
    "coloured sheet",
];

/// An image, and what is said of it.
pub struct Subject {
    pub words: Vec<u32>,
    /// The slow check's answer.
    pub answer: Answer,
    /// The original's pictures of all rows, plain and coloured.
    pictures: Option<[Sheet; 2]>,
}

impl Subject {
    /// Painted by the original where the slow check accepts it.
    pub fn painted(words: Vec<u32>) -> Subject {
        let mut subject = Subject::checked(words);
        subject.paint();
        subject
    }

    /// Not painted: to be asked for no rows at all, or for a refusal.
    pub fn checked(words: Vec<u32>) -> Subject {
        let answer = slow_check(&words);
        Subject {
            words,
            answer,
            pictures: None,
        }
    }

    /// Has the original paint it, if it is accepted.
    pub fn paint(&mut self) {
        if self.is_accepted() {
            let pictures = paint_both(&self.words);
            let pictures = pictures.unwrap_or_else(|why| panic!("an accepted image: {why}"));
            self.pictures = Some(pictures);
        }
    }

    pub fn is_accepted(&self) -> bool {
        self.answer.code == 0
    }

    /// Whether its rows can be asked for.
    pub fn is_painted(&self) -> bool {
        self.pictures.is_some()
    }

    /// A word of the header; 0 where there is none.
    fn head(&self, place: usize) -> usize {
        self.words.get(place).copied().unwrap_or(0) as usize
    }

    pub fn width(&self) -> usize {
        self.head(0)
    }

    pub fn height(&self) -> usize {
        self.head(1)
    }

    /// What a band of so many rows wants of each buffer.
    pub fn room(&self, rows: usize) -> [usize; 4] {
        room(&self.words, rows)
    }

    /// What the whole sheet in one call wants of each buffer.
    pub fn sheet_room(&self) -> [usize; 4] {
        sheet_room(&self.words)
    }

    /// What its text wants of the output.
    pub fn output_room(&self, rows: usize, coloured: bool) -> usize {
        output_room(self.width(), rows, coloured)
    }

    /// The cells of the whole sheet; none where it is not painted.
    pub fn cells(&self) -> &[u32] {
        self.pictures.as_ref().map_or(&[], |both| &both[0].cells)
    }

    /// Whether the original, in bands of this height and with its sweep carried from each to
    /// the next, paints what it paints at once; there must be a picture.
    pub fn is_swept_alike(&self, coloured: bool, band: u64) -> bool {
        let band = usize::try_from(band).unwrap_or(usize::MAX);
        let swept = paint(&self.words, coloured, band);
        let pictures = self.pictures.as_ref();
        pictures.is_some_and(|both| swept.is_ok_and(|swept| swept == both[usize::from(coloured)]))
    }
}

/// Which rows are asked for.
#[derive(Clone, Copy)]
pub enum Rows {
    /// So many from the first one on.
    Band { first: u64, rows: u64 },
    /// All of them in one call, which paints them in bands of this height.
    Sheet { band: u64 },
}

/// What is asked for, and what is lent for it.
#[derive(Clone)]
pub struct Request {
    pub subject: Rc<Subject>,
    pub rows: Rows,
    pub coloured: bool,
    /// Bytes lent of the output, where a band is asked for as text.
    pub output: Option<usize>,
    /// Words lent of each buffer. A plain request says four numbers too, and lends
    /// cells and scratch alone.
    pub lent: [usize; 4],
}

impl Request {
    /// "Plain paint takes cells and scratch; coloured paint also colours and
    /// stamps."
    pub fn buffers(&self) -> &'static [usize] {
        match self.coloured {
            true => &[CELLS, COLOURS, STAMPS, SCRATCH],
            false => &[CELLS, SCRATCH],
        }
    }

    /// A band or a sheet, as text or not, plain or coloured: which of the `KINDS` it is.
    pub fn kind(&self) -> &'static str {
        let nth = match (self.rows, self.output) {
            (Rows::Band { .. }, None) => 0,
            (Rows::Band { .. }, Some(_)) => 2,
            (Rows::Sheet { .. }, _) => 4,
        };
        KINDS[nth + usize::from(self.coloured)]
    }

    pub fn is_sheet(&self) -> bool {
        matches!(self.rows, Rows::Sheet { .. })
    }

    /// What it wants of each buffer.
    pub fn room(&self) -> [usize; 4] {
        match self.rows {
            Rows::Band { rows, .. } => self.subject.room(rows as usize),
            Rows::Sheet { .. } => self.subject.sheet_room(),
        }
    }

    /// The first of the rows that it is about, and how many they are.
    pub fn first_and_rows(&self) -> (usize, usize) {
        match self.rows {
            Rows::Band { first, rows } => (first as usize, rows as usize),
            Rows::Sheet { .. } => (0, self.subject.height()),
        }
    }

    /// Code and place; 0 and 0 where the band is painted. "20, place 0, output under [the
    /// room], after all of 01's".
    pub fn refusal(&self) -> (u32, u32) {
        let by_painting = self.refusal_by_painting();
        let is_short = |lent: usize| {
            let (_, rows) = self.first_and_rows();
            lent < self.subject.output_room(rows, self.coloured)
        };
        match by_painting.0 == 0 && self.output.is_some_and(is_short) {
            true => (20, 0),
            false => by_painting,
        }
    }

    fn refusal_by_painting(&self) -> (u32, u32) {
        if !self.subject.is_accepted() {
            return (self.subject.answer.code, self.subject.answer.place);
        }
        if let Some(place) = self.bad_rows() {
            return (11, place);
        }
        let room = self.room();
        let is_short = |buffer: &&usize| self.lent[**buffer] < room[**buffer];
        match self.buffers().iter().find(is_short) {
            Some(buffer) => (12, *buffer as u32 + 1),
            None => (0, 0),
        }
    }

    /// The place of 11, where the rows are not to be had.
    fn bad_rows(&self) -> Option<u32> {
        match self.rows {
            // "first band row + rows > height", the true sum.
            Rows::Band { first, rows } => {
                let end = u128::from(first) + u128::from(rows);
                (end > self.subject.height() as u128).then_some(0)
            }
            // "band height 0 is 11, place 1"
            Rows::Sheet { band } => (band == 0).then_some(1),
        }
    }

    /// What a lent buffer holds before the call.
    pub fn words_before(&self, buffer: usize) -> impl Iterator<Item = u32> {
        let start = 0x5000_0000 + 0x100_0000 * (buffer as u32 + 1);
        (0..self.lent[buffer] as u32).map(move |place| start + place)
    }

    /// What it must hold after the call.
    pub fn words_after(&self, buffer: usize) -> Vec<u32> {
        let mut words: Vec<u32> = self.words_before(buffer).collect();
        if self.refusal().0 == 0 {
            self.fill_needed(buffer, &mut words);
        }
        words
    }

    /// "the needed part of cells and colours holds the band, of stamps and scratch
    /// holds zeros"; of a sheet, "success zeroes stamps and the needed scratch".
    fn fill_needed(&self, buffer: usize, words: &mut [u32]) {
        let needed = &mut words[..self.room()[buffer]];
        if buffer == STAMPS || buffer == SCRATCH || needed.is_empty() {
            return needed.fill(0);
        }
        needed.copy_from_slice(self.original(buffer));
    }

    /// The cells or the colours of the rows, as the original painted them.
    fn original(&self, buffer: usize) -> &[u32] {
        let Some([plain, coloured]) = &self.subject.pictures else {
            panic!("rows of an image that was not painted");
        };
        let width = self.subject.width();
        let plane = match (buffer, self.coloured) {
            (CELLS, false) => &plain.cells,
            (CELLS, true) => &coloured.cells,
            _ => &coloured.colours,
        };
        let (first, rows) = self.first_and_rows();
        &plane[first * width..][..rows * width]
    }
}

// ---- The text --------------------------------------------------------------

impl Request {
    /// The text that must be written; none where no text is asked for, or on refusal.
    pub fn text(&self) -> Vec<u8> {
        let is_written = self.output.is_some() && self.refusal().0 == 0;
        let (width, (_, rows)) = (self.subject.width(), self.first_and_rows());
        if !is_written || rows == 0 {
            return Vec::new();
        }
        let colours = self.coloured.then(|| self.original(COLOURS));
        text_of(width, rows, self.original(CELLS), colours)
    }

    /// The cells that are written as text; there must be a text.
    pub fn painted_cells(&self) -> &[u32] {
        match self.first_and_rows() {
            (_, 0) => &[],
            _ => self.original(CELLS),
        }
    }

    /// What the output holds before the call.
    pub fn bytes_before(&self) -> impl Iterator<Item = u8> {
        (0..self.output.unwrap_or(0)).map(|place| (0x50 + place) as u8)
    }

    /// What it must hold after the call that writes this text.
    pub fn bytes_after(&self, text: &[u8]) -> Vec<u8> {
        let untouched = self.bytes_before().skip(text.len());
        text.iter().copied().chain(untouched).collect()
    }
}

impl std::fmt::Display for Request {
    fn fmt(&self, f: &mut std::fmt::Formatter<'_>) -> std::fmt::Result {
        match self.rows {
            Rows::Band { first, rows } => write!(f, "{}, {rows} rows from {first}", self.kind())?,
            Rows::Sheet { band } => write!(f, "{} in bands of {band}", self.kind())?,
        }
        write!(f, ", lent {:?}", self.lent)?;
        match self.output {
            Some(bytes) => write!(f, " and {bytes} bytes"),
            None => Ok(()),
        }
    }
}
