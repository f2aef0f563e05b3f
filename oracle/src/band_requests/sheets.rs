//! Whole sheets in one call: in bands of several heights, with buffers that are longer than the
//! room, just as long and short, and with band height 0.

use super::{Asking, MOST_SPARE};
use crate::requests::{Rows, SCRATCH};

/// In how high bands a sheet is painted.
#[derive(Clone, Copy)]
enum BandHeight {
    Rows(u64),
    Whole,
    /// An odd number by chance.
    Odd,
    /// By one row, by some, or by so many that 32 bits do not hold them.
    Above,
}

const ONE_ROW: (&str, BandHeight) = ("sheet in bands of 1", BandHeight::Rows(1));

/// Two of these are asked besides.
const OTHER_HEIGHTS: [(&str, BandHeight); 5] = [
    ("sheet in bands of 3", BandHeight::Rows(3)),
    ("sheet in bands of 8", BandHeight::Rows(8)),
    ("sheet as one band", BandHeight::Whole),
    ("sheet in odd bands", BandHeight::Odd),
    ("sheet in a band above its height", BandHeight::Above),
];

const JUST_THE_ROOM: &str = "sheet with just the room";
const OF_NO_HEIGHT: &str = "sheet in bands of 0";
const OF_NO_HEIGHT_AND_SHORT: &str = "sheet in bands of 0, nothing lent";
const ONE_SHORT: &str = "sheet with one buffer short";
const SOME_SHORT: &str = "sheet with some buffers short";
const SCRATCH_OF_A_BAND: &str = "sheet with the scratch of a band";
const LITTLE_LENT: &str = "sheet with little lent";

/// All ways in which sheets are asked for.
#[cfg(product)]
pub const SHEET_WAYS: [&str; 13] = [
    ONE_ROW.0,
    OTHER_HEIGHTS[0].0,
    OTHER_HEIGHTS[1].0,
    OTHER_HEIGHTS[2].0,
    OTHER_HEIGHTS[3].0,
    OTHER_HEIGHTS[4].0,
    JUST_THE_ROOM,
    OF_NO_HEIGHT,
    OF_NO_HEIGHT_AND_SHORT,
    ONE_SHORT,
    SOME_SHORT,
    SCRATCH_OF_A_BAND,
    LITTLE_LENT,
];

/// Buffers of more words in all make a request dear; of such sheets one in four is asked for
/// its refusals.
const DEAR: usize = 40_000;

impl Asking {
    pub fn ask_sheet(&mut self, how: &'static str, coloured: bool, band: u64, lent: [usize; 4]) {
        self.ask_for(how, coloured, Rows::Sheet { band }, lent);
    }

    /// Every buffer with as much as the sheet wants, or a little more.
    fn enough_for_sheet(&mut self) -> [usize; 4] {
        let room = self.subject.sheet_room();
        room.map(|wanted| wanted + self.dice.index(MOST_SPARE + 1))
    }

    /// Whether the sheet was painted by the original, and as much can be lent.
    fn can_be_asked_whole(&self) -> bool {
        let room = self.subject.sheet_room();
        let fits = room
            .iter()
            .all(|wanted| wanted + MOST_SPARE <= self.most.words);
        self.subject.is_painted() && fits
    }

    fn band_height(&mut self, height: BandHeight) -> u64 {
        let rows = self.subject.height() as u64;
        match height {
            BandHeight::Rows(band) => band,
            BandHeight::Whole => rows.max(1),
            BandHeight::Odd => 5 + 2 * u64::from(self.dice.below(6)),
            BandHeight::Above => match self.dice.below(4) {
                0 => rows + 1,
                1 => rows + 2 + u64::from(self.dice.below(40)),
                2 => u64::from(u32::MAX) + u64::from(self.dice.below(3)),
                _ => u64::MAX - u64::from(self.dice.below(2)),
            },
        }
    }

    /// Plain and coloured, in bands of one row and of two other heights by chance.
    pub fn ask_sheets(&mut self) {
        if !self.can_be_asked_whole() {
            return;
        }
        let others = OTHER_HEIGHTS.len();
        let one = self.dice.index(others);
        let two = (one + 1 + self.dice.index(others - 1)) % others;
        for (how, height) in [ONE_ROW, OTHER_HEIGHTS[one], OTHER_HEIGHTS[two]] {
            let band = self.band_height(height);
            for coloured in [false, true] {
                let lent = self.enough_for_sheet();
                self.ask_sheet(how, coloured, band, lent);
            }
        }
    }

    /// "band height 0 is 11, place 1; room is 12": band height 0 with room and without, where 11
    /// wins; just the room; each buffer short alone, and several at once.
    pub fn ask_sheet_refusals(&mut self) {
        let room = self.subject.sheet_room();
        let is_dear = room.iter().sum::<usize>() > DEAR && !self.dice.one_in(4);
        if !self.can_be_asked_whole() || is_dear {
            return;
        }
        for coloured in [false, true] {
            let nth = self.dice.index(OTHER_HEIGHTS.len());
            let band = self.band_height(OTHER_HEIGHTS[nth].1);
            self.ask_sheet(JUST_THE_ROOM, coloured, band, room);
            let lent = self.enough_for_sheet();
            self.ask_sheet(OF_NO_HEIGHT, coloured, 0, lent);
            self.ask_sheet(OF_NO_HEIGHT_AND_SHORT, coloured, 0, [0; 4]);
            self.ask_sheets_short(coloured, band);
        }
    }

    /// Code 12.
    fn ask_sheets_short(&mut self, coloured: bool, band: u64) {
        let room = self.subject.sheet_room();
        for (buffer, wanted) in room.into_iter().enumerate().filter(|(_, room)| *room > 0) {
            for short in [wanted - 1, 0, self.dice.index(wanted)] {
                let mut lent = self.enough_for_sheet();
                lent[buffer] = short;
                self.ask_sheet(ONE_SHORT, coloured, band, lent);
            }
        }
        // Enough only for an image without elements.
        let mut lent = self.enough_for_sheet();
        lent[SCRATCH] = self.subject.room(self.subject.height())[SCRATCH];
        self.ask_sheet(SCRATCH_OF_A_BAND, coloured, band, lent);
        for _ in 0..3 {
            let lent = room.map(|wanted| match self.dice.below(3) {
                0 => wanted,
                1 => wanted.saturating_sub(1),
                _ => 0,
            });
            self.ask_sheet(SOME_SHORT, coloured, band, lent);
        }
    }

    /// Of a refused image no word that was lent may change, and its code wins over 11 and 12.
    pub fn ask_sheets_with_little(&mut self) {
        let above = self.band_height(BandHeight::Above);
        for coloured in [false, true] {
            for band in [0, 1, above] {
                let lent = [(); 4].map(|()| self.dice.index(40));
                self.ask_sheet(LITTLE_LENT, coloured, band, lent);
            }
        }
    }
}
