//! What the whole sheets that had to be painted in one call held: how they fell into bands, and
//! how their elements came and went on the way down.

use crate::image::{Element, Image};
use crate::requests::{Request, Rows};
#[cfg(product)]
use std::io::{self, Write};

/// The kinds, in the order in which they are told; a sheet is of as many as apply.
const NAMES: [&str; 17] = [
    "no row",
    "no column",
    "one band",
    "several bands",
    "a last band that is lower",
    "bands of one row",
    "a band height above the sheet's",
    "no element",
    "an element in one of several bands",
    "an element in several bands",
    "an element that begins in a later band",
    "an element that ends before the last band",
    "an element that begins in a band's last row",
    "an element that ends in a band's first row",
    "elements that begin on one row",
    "an element that ends between two that go on",
    "an element listed below the last row",
];

#[derive(Clone)]
pub struct SheetCoverage {
    counts: [u64; NAMES.len()],
    sheets: u64,
}

impl SheetCoverage {
    pub fn none() -> SheetCoverage {
        SheetCoverage {
            counts: [0; NAMES.len()],
            sheets: 0,
        }
    }

    /// A request that paints a sheet; any other is not counted.
    pub fn count(&mut self, request: &Request) {
        let Rows::Sheet { band } = request.rows else {
            return;
        };
        let image = Image::read(&request.subject.words);
        let image = image.unwrap_or_else(|why| panic!("a painted image: {why}"));
        self.sheets += 1;
        let applies = Bands::of(&image, band).applies(&image);
        for (count, applies) in self.counts.iter_mut().zip(applies) {
            *count += u64::from(applies);
        }
    }

    #[cfg(product)]
    pub fn add(&mut self, other: &SheetCoverage) {
        self.sheets += other.sheets;
        for (count, more) in self.counts.iter_mut().zip(&other.counts) {
            *count += more;
        }
    }

    /// What no sheet held.
    pub fn missing(&self) -> impl Iterator<Item = &'static str> + '_ {
        let both = NAMES.iter().zip(&self.counts);
        both.filter(|(_, count)| **count == 0)
            .map(|(name, _)| *name)
    }

    #[cfg(product)]
    pub fn write(&self, out: &mut impl Write) -> io::Result<()> {
        writeln!(out, "sheets painted in one call: {}, of which", self.sheets)?;
        for (name, count) in NAMES.iter().zip(&self.counts) {
            writeln!(out, "  {name}: {count}")?;
        }
        Ok(())
    }
}

/// How the rows of a sheet fall into bands.
struct Bands {
    height: usize,
    /// Rows of each, the last one's maybe fewer.
    rows: usize,
    /// Whether more rows were asked for than there are.
    is_above: bool,
}

impl Bands {
    fn of(image: &Image, band: u64) -> Bands {
        let height = image.height;
        let rows = usize::try_from(band).unwrap_or(usize::MAX);
        Bands {
            height,
            rows: rows.clamp(1, height.max(1)),
            is_above: rows > height,
        }
    }

    /// The number of the band that a row is in; a row below the sheet counts as its last.
    fn number(&self, row: usize) -> usize {
        row.min(self.height.saturating_sub(1)) / self.rows
    }

    /// In the order of `NAMES`.
    fn applies(&self, image: &Image) -> [bool; NAMES.len()] {
        let on_sheet = |element: &&Element| element.first_row < self.height;
        let all: Vec<&Element> = image.elements.iter().filter(on_sheet).collect();
        let last = self.number(self.height);
        let begins = |element: &Element| self.number(element.first_row);
        let ends = |element: &Element| self.number(element.last_row);
        let is_last_row = |row: usize| self.rows > 1 && row % self.rows == self.rows - 1;
        let is_first_row = |row: usize| self.rows > 1 && row % self.rows == 0;
        [
            self.height == 0,
            image.width == 0,
            self.height > 0 && last == 0,
            last > 0,
            last > 0 && self.height % self.rows > 0,
            last > 0 && self.rows == 1,
            self.is_above,
            image.elements.is_empty(),
            last > 0 && all.iter().any(|one| begins(one) == ends(one)),
            all.iter().any(|one| begins(one) < ends(one)),
            all.iter().any(|one| begins(one) > 0),
            all.iter().any(|one| ends(one) < last),
            all.iter()
                .any(|one| is_last_row(one.first_row) && begins(one) < ends(one)),
            all.iter()
                .any(|one| is_first_row(one.last_row) && begins(one) < ends(one)),
            all.windows(2)
                .any(|two| two[0].first_row == two[1].first_row),
            self.ends_between(&all),
            image.elements.len() > all.len(),
        ]
    }

    /// Whether an element ends in a band that one before it and one after it in the list are in
    /// and go on from: it leaves a gap.
    fn ends_between(&self, all: &[&Element]) -> bool {
        let begins = |element: &Element| self.number(element.first_row);
        let ends = |element: &Element| self.number(element.last_row);
        (0..all.len()).any(|nth| {
            let band = ends(all[nth]);
            let goes_on = |one: &&Element| begins(one) <= band && ends(one) > band;
            all[..nth].iter().any(goes_on) && all[nth + 1..].iter().any(goes_on)
        })
    }
}
