//! An image in the making.

use crate::layout::{
    ELEMENTS, FIRST_COUNT_WORD, HEADER_LIMITS, HEADER_WORDS, RECORD_WORDS, TABLES,
};
#[cfg(original)]
use crate::layout::{GLYPHS, POINTS};

/// An edge without label or colour.
pub fn edge_record(ends: [u32; 4], flags: u32, abc: [u32; 3]) -> Vec<u32> {
    [&ends[..], &[flags], &abc, &[0; 4]].concat()
}

/// An image as its records, so that records can be added, removed and moved
/// without losing the rest.
#[derive(Clone)]
pub struct Draft {
    /// Width, height, run capacity and flags.
    pub head: [u32; FIRST_COUNT_WORD],
    pub tables: [Vec<Vec<u32>>; TABLES],
}

impl Draft {
    pub fn blank_sheet(width: u32, height: u32) -> Draft {
        Draft {
            head: [width, height, 0, 0],
            tables: Default::default(),
        }
    }

    /// None where the length does not fit the counts.
    pub fn from_words(words: &[u32]) -> Option<Draft> {
        let mut draft = Draft::blank_sheet(0, 0);
        let header = words.get(..HEADER_WORDS)?;
        draft.head.copy_from_slice(&header[..FIRST_COUNT_WORD]);
        let mut rest = &words[HEADER_WORDS..];
        for (table, record_words) in RECORD_WORDS.iter().enumerate() {
            let count = header[FIRST_COUNT_WORD + table] as usize;
            let length = count.checked_mul(*record_words)?;
            let records = rest.get(..length)?.chunks(*record_words);
            draft.tables[table] = records.map(<[u32]>::to_vec).collect();
            rest = &rest[length..];
        }
        rest.is_empty().then_some(draft)
    }

    pub fn to_words(&self) -> Vec<u32> {
        let mut words = self.head.to_vec();
        words.extend(self.tables.iter().map(|records| records.len() as u32));
        for records in &self.tables {
            words.extend(records.iter().flatten());
        }
        words
    }

    pub fn count(&self, table: usize) -> u32 {
        self.tables[table].len() as u32
    }

    pub fn has_room(&self, table: usize) -> bool {
        self.count(table) < HEADER_LIMITS[FIRST_COUNT_WORD + table]
    }

    /// Adds a record and answers its index.
    pub fn add(&mut self, table: usize, record: &[u32]) -> u32 {
        self.tables[table].push(record.to_vec());
        self.count(table) - 1
    }

    /// Adds a label's glyphs; answers its start and count.
    #[cfg(original)]
    pub fn write(&mut self, text: &str) -> [u32; 2] {
        let start = self.count(GLYPHS);
        for glyph in text.chars() {
            self.add(GLYPHS, &[glyph as u32]);
        }
        [start, self.count(GLYPHS) - start]
    }

    /// Adds the points of a path; answers the first one's number and how many they
    /// are.
    #[cfg(original)]
    pub fn add_points(&mut self, points: impl IntoIterator<Item = [u32; 2]>) -> [u32; 2] {
        let first = self.count(POINTS);
        for point in points {
            self.add(POINTS, &point);
        }
        [first, self.count(POINTS) - first]
    }

    /// The word at which a field of a record stands in the image.
    pub fn place(&self, table: usize, record: u32, field: usize) -> u32 {
        let mut place = HEADER_WORDS + record as usize * RECORD_WORDS[table] + field;
        for earlier in 0..table {
            place += self.tables[earlier].len() * RECORD_WORDS[earlier];
        }
        place as u32
    }

    pub fn list(&mut self, kind: usize, index: u32, first_row: u32, last_row: u32) {
        self.add(ELEMENTS, &[kind as u32, index, first_row, last_row]);
    }

    /// Code 8 wants the elements in order of first row; equal ones stay as they
    /// are.
    pub fn sort_elements(&mut self) {
        self.tables[ELEMENTS].sort_by_key(|element| element[2]);
    }
}
