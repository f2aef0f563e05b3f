//! `limits`: named images at each limit of the check and just past it. The
//! program `checklines` reads them as its stored standard input; what it must
//! answer is what the slow check answers.
//!
//! Each case also states its answer, worked out by hand from how the image is
//! made, so that a case cannot quietly come to test something else.

mod controls;
mod corners;
mod fields;
mod header;
mod ink;
mod ink_of_edges;
mod listing;
mod order;
mod ranges;
mod runs;

#[cfg(original)]
pub use order::broken_for;

use crate::asking::bytes_of;
use crate::codes::CHECK_CODES;
use crate::draft::{edge_record, Draft};
use crate::layout::{
    path_flags, BLANK, DIRECT, EDGES, GLYPHS, NODES, PLACED_LABELS, POINTS, SUBGRAPHS, WIDTH_RANGES,
};
use crate::slow_check::{slow_check, Answer};
use crate::stored::{self, Stored};
use crate::wrong_use;
use std::io::{self, Write as _};
use std::process::ExitCode;

struct Case {
    name: String,
    words: Vec<u32>,
    stated: Answer,
}

#[derive(Default)]
struct Cases {
    list: Vec<Case>,
}

impl Cases {
    fn answered(&mut self, name: impl Into<String>, words: Vec<u32>, stated: Answer) {
        let name = name.into();
        self.list.push(Case {
            name,
            words,
            stated,
        });
    }

    fn accepted(&mut self, name: impl Into<String>, draft: &Draft) {
        self.accepted_with_runs(name, draft, 0);
    }

    fn accepted_with_runs(&mut self, name: impl Into<String>, draft: &Draft, runs: u32) {
        let (code, place) = (0, 0);
        let stated = Answer { code, place, runs };
        self.answered(name, draft.to_words(), stated);
    }

    fn refused(&mut self, name: impl Into<String>, draft: &Draft, code: u32, place: u32) {
        self.refused_words(name, draft.to_words(), code, place);
    }

    fn refused_words(&mut self, name: impl Into<String>, words: Vec<u32>, code: u32, place: u32) {
        let runs = 0;
        self.answered(name, words, Answer { code, place, runs });
    }
}

fn all_cases() -> Vec<Case> {
    let mut cases = Cases::default();
    header::add(&mut cases);
    fields::add(&mut cases);
    ranges::add(&mut cases);
    corners::add(&mut cases);
    listing::add(&mut cases);
    ink::add(&mut cases);
    ink_of_edges::add(&mut cases);
    runs::add(&mut cases);
    order::add(&mut cases);
    controls::add(&mut cases);
    cases.list
}

/// One record in each table and a sheet without rows: nothing can touch a row,
/// so that the form of the records alone decides.
fn one_of_each() -> Draft {
    let mut draft = Draft::blank_sheet(4, 0);
    draft.add(NODES, &[1, 1, 1, 1, 0, 1, BLANK << 30, 0, 0]);
    draft.add(
        EDGES,
        &edge_record([1, 1, 1, 2], path_flags(DIRECT), [0; 3]),
    );
    draft.add(SUBGRAPHS, &[1, 1, 1, 1, 0, 1, 0, 0]);
    draft.add(PLACED_LABELS, &[0, 1, 1, 0]);
    draft.list(NODES, 0, 0, 0);
    draft.add(POINTS, &[1, 1]);
    draft.add(GLYPHS, &[0x41]);
    draft.add(WIDTH_RANGES, &[0x300, 0x36F, 0]);
    draft
}

/// Adds the points of a path, one before them and one after that are not its;
/// answers the path's first point and their number.
fn add_points(draft: &mut Draft, points: &[[u32; 2]]) -> [u32; 2] {
    if points.is_empty() {
        return [0, 0];
    }
    for point in [&[[0, 0]], points, &[[7, 0]]].concat() {
        draft.add(POINTS, &point);
    }
    [1, points.len() as u32]
}

/// A number for a case's name: flags and absurd numbers are easier in hex.
fn shown(value: u32) -> String {
    match value {
        0..=99_999 => value.to_string(),
        _ => format!("0x{value:08X}"),
    }
}

/// The stream ends inside an image, so the last line is `unread`.
fn stored_of(cases: &[Case]) -> Stored {
    let mut stored = Stored::of("limits", "checklines");
    for case in cases {
        let answer = line_of(slow_check(&case.words));
        stored.take(&case.name, &stream_of(&case.words), &answer, &answer);
    }
    let name = "an image of 12 words that breaks off inside its last word";
    let mut broken_off = stream_of(&[0; 12]);
    broken_off.pop();
    stored.take(name, &broken_off, "unread", "unread");
    stored
}

/// An image as `checklines` reads it: the number of its words, then the words.
pub fn stream_of(words: &[u32]) -> Vec<u8> {
    bytes_of(&[&[words.len() as u32], words].concat())
}

/// An answer as `checklines` prints it.
pub fn line_of(answer: Answer) -> String {
    format!("{} {} {}", answer.code, answer.place, answer.runs)
}

pub fn command(options: &[String]) -> io::Result<ExitCode> {
    let Some(writes) = stored::writes(options) else {
        return Ok(wrong_use("limits [--write]"));
    };
    let cases = all_cases();
    if stored::write_faults(&faults_of(&cases))? {
        return Ok(ExitCode::FAILURE);
    }
    write_counts(&cases)?;
    stored_of(&cases).finish(writes, "images")
}

/// Where the slow check does not answer what a case states, and names given twice.
fn faults_of(cases: &[Case]) -> Vec<String> {
    let mut faults = stored::repeated(cases.iter().map(|case| &case.name));
    for case in cases {
        let answered = slow_check(&case.words);
        if answered != case.stated {
            let (stated, answered) = (line_of(case.stated), line_of(answered));
            let name = &case.name;
            faults.push(format!("{name}: {stated} is stated, {answered} answered"));
        }
    }
    faults
}

fn write_counts(cases: &[Case]) -> io::Result<()> {
    for code in CHECK_CODES {
        let images = cases.iter().filter(|case| case.stated.code == code).count();
        writeln!(io::stdout(), "code {code}: {images}")?;
    }
    Ok(())
}
