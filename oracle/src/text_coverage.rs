//! What the bands that had to be written as text held: of each kind of cell and of colour,
//! how often it was written.

use crate::as_text::{character, stroke_number, CONTINUATION, STROKES, TAG_STEP};
use crate::requests::Request;
#[cfg(product)]
use std::io::{self, Write};

/// The kinds, in the order in which they are told.
const NAMES: [&str; 18] = [
    "empty cell",
    "character of one byte",
    "character of two bytes",
    "character of three bytes",
    "character of four bytes",
    "wide character",
    "stroke",
    "arrow up",
    "arrow down",
    "arrow left",
    "arrow right",
    "dashed arrow",
    "self-loop",
    "dummy",
    "change to colour 0",
    "change to a colour from 1 to 7",
    "change to a colour from 8 to 255",
    "change to a colour from 256 on",
];

/// Where they stand there. A character of N bytes is number N.
const EMPTY: usize = 0;
const WIDE: usize = 5;
const STROKE: usize = 6;
const FIRST_ARROW: usize = 7;
const DASHED_ARROW: usize = 11;
const SELF_LOOP: usize = 12;
const DUMMY: usize = 13;
const COLOUR_0: usize = 14;

/// Of a marker's word: "kind in bits 3..0 [..], direction in 5..4 [..], dashed in bit 6".
const ARROW: u32 = 1;
const DASHED_BIT: u32 = 1 << 6;

#[derive(Clone)]
pub struct TextCoverage {
    counts: [u64; NAMES.len()],
    /// By the number of their arms.
    strokes: [u64; STROKES],
    bands: u64,
    bytes: u64,
}

impl TextCoverage {
    pub fn none() -> TextCoverage {
        TextCoverage {
            counts: [0; NAMES.len()],
            strokes: [0; STROKES],
            bands: 0,
            bytes: 0,
        }
    }

    /// A band that is written as this text.
    pub fn count(&mut self, request: &Request, text: &[u8]) {
        self.bands += 1;
        self.bytes += text.len() as u64;
        for cell in request.painted_cells() {
            self.count_cell(*cell);
        }
        let sequences = text.split(|byte| *byte == 0x1B).skip(1);
        for sequence in sequences {
            self.counts[COLOUR_0 + colour_kind(sequence)] += 1;
        }
    }

    fn count_cell(&mut self, cell: u32) {
        let kind = match (cell >> TAG_STEP, cell & 15) {
            (0, _) => EMPTY,
            _ if cell == CONTINUATION => WIDE,
            (1, _) => character(cell).map_or(EMPTY, char::len_utf8),
            (2, _) => STROKE,
            (_, ARROW) => FIRST_ARROW + (cell >> 4 & 3) as usize,
            (_, 2) => SELF_LOOP,
            _ => DUMMY,
        };
        self.counts[kind] += 1;
        if kind == STROKE {
            self.strokes[stroke_number(cell)] += 1;
        }
        let is_arrow = (FIRST_ARROW..DASHED_ARROW).contains(&kind);
        self.counts[DASHED_ARROW] += u64::from(is_arrow && cell & DASHED_BIT != 0);
    }

    #[cfg(product)]
    pub fn add(&mut self, other: &TextCoverage) {
        self.bands += other.bands;
        self.bytes += other.bytes;
        let counts = self.counts.iter_mut().zip(&other.counts);
        let strokes = self.strokes.iter_mut().zip(&other.strokes);
        for (count, more) in counts.chain(strokes) {
            *count += more;
        }
    }

    /// What no text held.
    pub fn missing(&self) -> impl Iterator<Item = &'static str> + '_ {
        let both = NAMES.iter().zip(&self.counts);
        both.filter(|(_, count)| **count == 0)
            .map(|(name, _)| *name)
    }

    /// The kinds of strokes, by their arms, that no text held.
    pub fn missing_strokes(&self) -> Vec<String> {
        let missing = (1..STROKES).filter(|number| self.strokes[*number] == 0);
        missing.map(arms_name).collect()
    }

    #[cfg(product)]
    pub fn write(&self, out: &mut impl Write) -> io::Result<()> {
        let (bands, bytes) = (self.bands, self.bytes);
        writeln!(
            out,
            "bands written as text: {bands}, {bytes} bytes, of which"
        )?;
        for (name, count) in NAMES.iter().zip(&self.counts) {
            writeln!(out, "  {name}: {count}")?;
        }
        let (missing, all) = (self.missing_strokes(), STROKES - 1);
        let kinds = all - missing.len();
        writeln!(out, "  strokes of {kinds} kinds of {all}, by their arms")?;
        match missing.is_empty() {
            true => Ok(()),
            false => writeln!(out, "  no stroke of the arms {}", missing.join(" ")),
        }
    }
}

/// The weights of the arms up, down, left and right as `docs/TEXT.md` has them.
fn arms_name(number: usize) -> String {
    let weight = |nth: usize| ['\u{B7}', 'd', 'l', 'D'][number >> (2 * nth) & 3];
    (0..4).map(weight).collect()
}

/// By what stands after the escape: `[0m`, `[3Nm`, `[38;5;` or `[38;2;`.
fn colour_kind(sequence: &[u8]) -> usize {
    match sequence {
        [b'[', b'0', ..] => 0,
        [b'[', b'3', _, b'm', ..] => 1,
        [b'[', b'3', b'8', b';', b'5', ..] => 2,
        _ => 3,
    }
}
