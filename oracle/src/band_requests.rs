//! Which bands of an image painting is asked for, as cells and as text: sheets cut into bands
//! of several heights, bands that leave the sheet, buffers and outputs that are short; and whole
//! sheets in one call. The requests follow from the image and a seed alone, whoever is asked
//! them.

mod sheets;

use crate::dice::Dice;
use crate::generate::damage;
use crate::requests::{Request, Rows, Subject, SCRATCH};
#[cfg(product)]
pub use sheets::SHEET_WAYS;
use std::collections::BTreeSet;
use std::rc::Rc;

/// How a sheet is cut into bands.
#[derive(Clone, Copy)]
enum Cutting {
    Rows(usize),
    Whole,
    /// Heights by chance, 0 among them.
    Odd,
}

const WHOLE: (&str, Cutting) = ("whole", Cutting::Whole);

/// Each with its name.
const CUTTINGS: [(&str, Cutting); 5] = [
    ("in bands of 1", Cutting::Rows(1)),
    ("in bands of 3", Cutting::Rows(3)),
    ("in bands of 8", Cutting::Rows(8)),
    WHOLE,
    ("cut by chance", Cutting::Odd),
];

/// Of a cutting into more bands, or into bands that want more words in all, a part
/// is asked: the first, the last and some between them.
const MOST_BANDS: usize = 40;
const MOST_WORDS: usize = 400_000;

/// A buffer is lent with up to so many words more than are wanted, an output with up to so
/// many bytes more.
const MOST_SPARE: usize = 5;
const MOST_SPARE_BYTES: usize = 300;

/// Much more than an output wants.
const MUCH: usize = 5_000;

/// A band about which refusals are asked has at most so many rows.
const FEW_ROWS: usize = 20;

/// A sheet of more cells is not painted: some damages make one that is dear to paint
/// and shows nothing that a smaller one does not.
const MOST_PAINTED: usize = 1_500_000;

/// The most that can be lent.
#[derive(Clone, Copy)]
pub struct Most {
    /// Words of a buffer of cells.
    pub words: usize,
    /// Bytes of an output.
    pub bytes: usize,
}

/// How a band is asked for: coloured or plain, as text or as cells alone.
#[derive(Clone, Copy)]
struct Manner {
    coloured: bool,
    as_text: bool,
}

/// A request, and how it was made.
pub type Made = (&'static str, Request);

/// Requests about one image, in the making.
pub struct Asking {
    pub subject: Rc<Subject>,
    dice: Dice,
    most: Most,
    pub requests: Vec<Made>,
}

impl Asking {
    pub fn about(words: Vec<u32>, seed: u64, most: Most) -> Asking {
        Asking {
            subject: Rc::new(subject_of(words)),
            dice: Dice::new(seed ^ 0xBA4D_0000),
            most,
            requests: Vec::new(),
        }
    }

    pub fn ask(
        &mut self,
        how: &'static str,
        coloured: bool,
        (first, rows): (u64, u64),
        lent: [usize; 4],
    ) {
        self.ask_for(how, coloured, Rows::Band { first, rows }, lent);
    }

    fn ask_for(&mut self, how: &'static str, coloured: bool, rows: Rows, lent: [usize; 4]) {
        let request = Request {
            subject: Rc::clone(&self.subject),
            rows,
            coloured,
            output: None,
            lent,
        };
        self.requests.push((how, request));
    }

    /// As text, with so many bytes of output.
    pub fn ask_text(
        &mut self,
        how: &'static str,
        coloured: bool,
        band: (u64, u64),
        lent: [usize; 4],
        output: usize,
    ) {
        self.ask(how, coloured, band, lent);
        if let Some((_, last)) = self.requests.last_mut() {
            last.output = Some(output);
        }
    }

    /// Every buffer with as much as a band of so many rows wants, or a little more.
    fn enough_for(&mut self, rows: usize) -> [usize; 4] {
        let room = self.subject.room(rows);
        room.map(|wanted| wanted + self.dice.index(MOST_SPARE + 1))
    }

    /// An output with just the room, with a byte more or with some more.
    fn enough_output(&mut self, rows: usize, coloured: bool) -> usize {
        let more = match self.dice.below(4) {
            0 | 1 => 0,
            2 => 1,
            _ => self.dice.index(MOST_SPARE_BYTES + 1),
        };
        self.subject.output_room(rows, coloured) + more
    }

    /// The most rows of a band for which enough can be lent.
    fn most_rows(&self, Manner { coloured, as_text }: Manner) -> usize {
        let by_words = (self.most.words - MOST_SPARE) / self.subject.width().max(1);
        if !as_text {
            return by_words;
        }
        let row_bytes = self.subject.output_room(1, coloured);
        by_words.min((self.most.bytes - MOST_SPARE_BYTES) / row_bytes)
    }

    /// One cutting into bands plain and one coloured, of 25 numbers each pair once; and the
    /// same two as text, each in the other's bands.
    pub fn ask_four_cuttings(&mut self, number: u64) {
        let one = number as usize % CUTTINGS.len();
        let other = (one + number as usize / CUTTINGS.len()) % CUTTINGS.len();
        for as_text in [false, true] {
            let [plain, coloured] = if as_text { [other, one] } else { [one, other] };
            for (nth, coloured) in [(plain, false), (coloured, true)] {
                self.ask_cutting(CUTTINGS[nth], Manner { coloured, as_text });
            }
        }
    }
}

/// Painted by the original, unless it is refused or large.
fn subject_of(words: Vec<u32>) -> Subject {
    let mut subject = Subject::checked(words);
    if subject.width() * subject.height() <= MOST_PAINTED {
        subject.paint();
    }
    subject
}

// ---- Bands ---------------------------------------------------------------

impl Asking {
    /// Bands of the whole sheet; a refused image is asked for one band.
    fn ask_cutting(&mut self, (how, cutting): (&'static str, Cutting), manner: Manner) {
        let Manner { coloured, as_text } = manner;
        let is_painted = self.subject.is_painted();
        let bands = match is_painted {
            true => self.bands(cutting, manner),
            false => vec![(0, 1)],
        };
        for (first, rows) in bands {
            let band = (first as u64, rows as u64);
            let (how, lent, output) = match is_painted {
                true => (
                    how,
                    self.enough_for(rows),
                    self.enough_output(rows, coloured),
                ),
                false => ("refused", [3; 4], 3),
            };
            match as_text {
                true => self.ask_text(how, coloured, band, lent, output),
                false => self.ask(how, coloured, band, lent),
            }
        }
    }

    /// First row and rows of each band that is asked.
    fn bands(&mut self, cutting: Cutting, manner: Manner) -> Vec<(usize, usize)> {
        let (height, most_rows) = (self.subject.height(), self.most_rows(manner));
        let mut bands = Vec::new();
        let mut first = 0;
        while first < height {
            let rows = match cutting {
                Cutting::Rows(rows) => rows,
                Cutting::Whole => height,
                Cutting::Odd => self.odd_rows(height),
            };
            let rows = rows.min(height - first).min(most_rows);
            bands.push((first, rows));
            first += rows;
        }
        // Below the last row there is a band of no rows.
        if height == 0 || matches!(cutting, Cutting::Odd) {
            bands.push((height, 0));
        }
        self.some_of(bands, manner)
    }

    fn odd_rows(&mut self, height: usize) -> usize {
        match self.dice.below(6) {
            0 => 0,
            1 => 1,
            2 => self.dice.index(height + 1),
            _ => 1 + self.dice.index(9),
        }
    }

    fn some_of(&mut self, bands: Vec<(usize, usize)>, manner: Manner) -> Vec<(usize, usize)> {
        let Manner { coloured, as_text } = manner;
        let words = |(_, rows): &(usize, usize)| {
            let output = usize::from(as_text) * self.subject.output_room(*rows, coloured);
            self.subject.room(*rows).iter().sum::<usize>() + output / 4
        };
        let dearest = bands.iter().map(words).max().unwrap_or(0);
        let most = (MOST_WORDS / dearest.max(1)).clamp(2, MOST_BANDS);
        if bands.len() <= most {
            return bands;
        }
        let mut chosen = BTreeSet::from([0, bands.len() - 1]);
        while chosen.len() < most {
            chosen.insert(self.dice.index(bands.len()));
        }
        chosen.into_iter().map(|nth| bands[nth]).collect()
    }
}

// ---- Refusals ------------------------------------------------------------

/// Bands that leave a sheet of this height, by one row, and by so many that their
/// sum is 0 or fits the sheet again at 32 or at 64 bits. (On a sheet of no rows the
/// last is inside.)
fn beyond(height: u64) -> [(u64, u64); 15] {
    const WORD: u64 = 1 << 32;
    [
        (height, 1),
        (height + 1, 0),
        (0, height + 1),
        (1, height),
        (WORD - 1, 1),
        (WORD, 0),
        (0, WORD),
        (WORD, height),
        (WORD - 1, height + 1),
        (u64::MAX, 1),
        (1, u64::MAX),
        (1 << 63, 1 << 63),
        (u64::MAX, height + 1),
        (u64::MAX, u64::MAX),
        (height.wrapping_neg(), height),
    ]
}

impl Asking {
    /// Code 11, also where buffers and output are short: it wins over 12 and 20, as the
    /// check's codes win over all.
    pub fn ask_beyond(&mut self) {
        for band in beyond(self.subject.height() as u64) {
            let coloured = self.dice.one_in(2);
            let lent = [(); 4].map(|()| self.dice.index(60));
            self.ask("beyond the sheet", coloured, band, lent);
            let output = self.dice.index(MOST_SPARE_BYTES);
            self.ask_text("beyond the sheet", !coloured, band, lent, output);
        }
    }

    /// Some rows of a painted sheet, maybe none; no band where a large scratch would make
    /// every request dear, but for one in four.
    fn few_rows(&mut self) -> Option<(usize, usize)> {
        let height = self.subject.height();
        let first = self.dice.index(height + 1);
        let manner = Manner {
            coloured: true,
            as_text: true,
        };
        let most_rows = self.most_rows(manner).min(FEW_ROWS);
        let rows = self.dice.index((height - first).min(most_rows) + 1);
        let is_dear = self.subject.room(rows)[SCRATCH] > 10_000 && !self.dice.one_in(4);
        (self.subject.is_painted() && !is_dear).then_some((first, rows))
    }

    /// Code 12: each buffer short alone, several short at once, and none.
    pub fn ask_short_of_room(&mut self) {
        let Some((first, rows)) = self.few_rows() else {
            return;
        };
        let room = self.subject.room(rows);
        let band = (first as u64, rows as u64);
        for coloured in [false, true] {
            self.ask("with just the room", coloured, band, room);
            for (buffer, wanted) in room.into_iter().enumerate().filter(|(_, room)| *room > 0) {
                for short in [wanted - 1, 0, self.dice.index(wanted)] {
                    let mut lent = self.enough_for(rows);
                    lent[buffer] = short;
                    self.ask("one buffer short", coloured, band, lent);
                }
            }
            for _ in 0..3 {
                let lent = room.map(|wanted| match self.dice.below(3) {
                    0 => wanted,
                    1 => wanted.saturating_sub(1),
                    _ => 0,
                });
                self.ask("some buffers short", coloured, band, lent);
            }
        }
    }

    /// Code 20: an output that is short by a byte, by some or by all, one that has just the
    /// room, and longer ones.
    pub fn ask_outputs(&mut self) {
        let Some((first, rows)) = self.few_rows() else {
            return;
        };
        let (band, coloured) = ((first as u64, rows as u64), self.dice.one_in(2));
        let wanted = self.subject.output_room(rows, coloured);
        for (how, output) in [
            ("output short by a byte", wanted.saturating_sub(1)),
            ("output short", self.dice.index(wanted + 1)),
            ("no output", 0),
            ("just the output", wanted),
            ("output longer by a byte", wanted + 1),
            ("output much longer", wanted + MUCH),
        ] {
            let lent = self.enough_for(rows);
            self.ask_text(how, coloured, band, lent, output);
        }
    }

    /// 12 wins over 20: a buffer short beside an output that is short, or is not.
    pub fn ask_short_of_both(&mut self) {
        let Some((first, rows)) = self.few_rows() else {
            return;
        };
        let (band, room) = ((first as u64, rows as u64), self.subject.room(rows));
        for coloured in [false, true] {
            let wanted = self.subject.output_room(rows, coloured);
            for output in [wanted.saturating_sub(1), wanted, 0] {
                for buffer in 0..room.len() {
                    let mut lent = self.enough_for(rows);
                    lent[buffer] = room[buffer].saturating_sub(1);
                    self.ask_text("one buffer short", coloured, band, lent, output);
                }
                self.ask_text("nothing lent", coloured, band, [0; 4], output);
            }
        }
    }

    /// The image damaged: the check's codes, and what is still accepted is painted whole.
    pub fn ask_damaged(&mut self, times: u32, seed: u64) {
        let mut words = self.subject.words.clone();
        damage(&mut words, times, seed);
        self.subject = Rc::new(subject_of(words));
        if self.subject.is_painted() {
            for (coloured, as_text) in [(false, false), (true, false), (false, true), (true, true)]
            {
                self.ask_cutting(WHOLE, Manner { coloured, as_text });
            }
            self.ask_sheets();
        }
        self.ask_for_no_row();
    }

    /// No rows, and a band beyond the sheet, with little lent. Of a refused image no word or
    /// byte that was lent may change, and its code wins over 11, 12 and 20.
    pub fn ask_for_no_row(&mut self) {
        let bands = beyond(self.subject.height() as u64);
        for coloured in [false, true] {
            for band in [(0, 0), bands[self.dice.index(bands.len())]] {
                let lent = [(); 4].map(|()| self.dice.index(40));
                self.ask("asked for no row", coloured, band, lent);
                let output = self.dice.index(40);
                self.ask_text("asked for no row", coloured, band, lent, output);
            }
        }
        self.ask_sheets_with_little();
    }

    /// How often the image is to be damaged: once, twice or three times.
    pub fn some_damages(&mut self) -> u32 {
        1 + self.dice.below(3)
    }
}
