//! Each refusal from 1 to 13, alone and beside others; no word that is lent changes.

use super::bands::medley;
use super::{band, subject_of, whole, Cases};
use crate::generate::accepted_draft;
use crate::layout::GLYPHS;
use crate::limits::broken_for;
use crate::requests::{Request, Rows, Subject, BUFFER_NAMES, CELLS, COLOURS, SCRATCH, STAMPS};
use std::rc::Rc;

pub fn add(cases: &mut Cases) {
    of_document_01(cases);
    beyond_the_sheet(cases);
    one_buffer_short(cases);
    several_short(cases);
    of_control_characters(cases);
    pasted_names(cases);
    pasted_and_beyond(cases);
    pasted_and_short(cases);
}

fn of_document_01(cases: &mut Cases) {
    for code in 1..=10 {
        of_the_check(cases, &format!("code {code}"), &[code]);
    }
}

/// "after the width ranges and before the corners"
fn of_control_characters(cases: &mut Cases) {
    of_the_check(cases, "code 13", &[13]);
    of_the_check(cases, "code 4 beside 13", &[4, 13]);
    of_the_check(cases, "code 5 beside 13", &[5, 13]);
    of_the_check(cases, "code 13 beside 6", &[13, 6]);
    of_the_check(cases, "code 13 beside 6 to 10", &[13, 6, 7, 8, 9, 10]);
}

/// An image that is broken for these codes gets the first of them, also where the band
/// leaves every sheet and nothing is lent: it wins over 11 and 12.
fn of_the_check(cases: &mut Cases, what: &str, codes: &[u32]) {
    let (words, place) = broken_for(codes);
    let subject = Rc::new(Subject::checked(words));
    for (name, rows, lent) in [
        ("enough lent", 1, [40; 4]),
        ("nothing lent", 1, [0; 4]),
        ("a band beyond", u64::MAX, [1, 2, 3, 4]),
    ] {
        for (kind, coloured) in [("plain", false), ("coloured", true)] {
            let request = Request {
                subject: Rc::clone(&subject),
                rows: Rows::Band {
                    first: rows / 2,
                    rows,
                },
                coloured,
                output: None,
                lent,
            };
            let name = format!("refused for {what}, {name}, {kind}");
            cases.ask(name, request, (codes[0], place));
        }
    }
}

/// "first band row + rows > height", the true sum, of a sheet of nine rows.
fn beyond_the_sheet(cases: &mut Cases) {
    const WORD: u64 = 1 << 32;
    let subject = subject_of(&medley());
    for (first, rows) in [
        (9, 1),
        (10, 0),
        (0, 10),
        (1, 9),
        (WORD, 0),
        (0, WORD),
        (WORD - 1, 1),
        (WORD - 1, 10),
        (1 << 63, 1 << 63),
        (u64::MAX, 1),
        (u64::MAX, 10),
        (1, u64::MAX),
        (u64::MAX, u64::MAX),
    ] {
        // 11 wins over 12.
        for (name, lent) in [("enough lent", [90, 90, 90, 40]), ("nothing lent", [0; 4])] {
            let request = Request {
                subject: Rc::clone(&subject),
                rows: Rows::Band { first, rows },
                coloured: first % 2 == 1,
                output: None,
                lent,
            };
            let name = format!("{rows} rows from {first} of nine, {name}");
            cases.ask(name, request, (11, 0));
        }
    }
}

/// Two rows of the medley: what must be lent.
fn two_rows(coloured: bool) -> Request {
    let request = band(subject_of(&medley()), coloured, (3, 2));
    let lent = request.subject.room(2);
    Request { lent, ..request }
}

fn one_buffer_short(cases: &mut Cases) {
    for (kind, coloured) in [("plain", false), ("coloured", true)] {
        for (buffer, name) in [
            (CELLS, "cells"),
            (COLOURS, "colours"),
            (STAMPS, "stamps"),
            (SCRATCH, "scratch"),
        ] {
            // A plain request lends neither colours nor stamps.
            let is_lent = coloured || buffer == CELLS || buffer == SCRATCH;
            let stated = if is_lent {
                (12, buffer as u32 + 1)
            } else {
                (0, 0)
            };
            for short_by in [1, 2] {
                let mut request = two_rows(coloured);
                request.lent[buffer] -= short_by;
                cases.ask(
                    format!("{name} short by {short_by}, {kind}"),
                    request,
                    stated,
                );
            }
            let mut request = two_rows(coloured);
            request.lent[buffer] = 0;
            cases.ask(format!("no {name}, {kind}"), request, stated);
        }
    }
    // "scratch is wanted also for rows 0"
    let request = Request {
        lent: [0; 4],
        ..band(subject_of(&medley()), true, (9, 0))
    };
    cases.ask("no rows and no scratch", request, (12, 4));
}

/// "the first short one"
fn several_short(cases: &mut Cases) {
    for (kind, coloured) in [("plain", false), ("coloured", true)] {
        for (name, short, stated) in [
            ("all", [1, 1, 1, 1], 1),
            ("all but cells", [0, 1, 1, 1], if coloured { 2 } else { 4 }),
            (
                "stamps and scratch",
                [0, 0, 1, 1],
                if coloured { 3 } else { 4 },
            ),
            ("cells and scratch", [1, 0, 0, 1], 1),
        ] {
            let mut request = two_rows(coloured);
            for (lent, short_by) in request.lent.iter_mut().zip(short) {
                *lent -= short_by;
            }
            cases.ask(format!("short: {name}, {kind}"), request, (12, stated));
        }
    }
}

// ---- Control characters ----------------------------------------------------

/// The number of the glyph that is the whole name of the medley's box.
const NAME: u32 = 5;

/// The medley with another glyph for that name, and the glyph's place.
pub fn pasted(glyph: u32) -> (Rc<Subject>, u32) {
    let mut draft = accepted_draft(&medley());
    draft.tables[GLYPHS][NAME as usize] = vec![glyph];
    let subject = Subject::painted(draft.to_words());
    (Rc::new(subject), draft.place(GLYPHS, NAME, 0))
}

/// Those just outside of the two ranges are painted.
fn pasted_names(cases: &mut Cases) {
    for glyph in [
        0x00, 0x01, 0x1B, 0x1F, 0x20, 0x7E, 0x7F, 0x80, 0x9F, 0xA0, 0xA1,
    ] {
        let (subject, place) = pasted(glyph);
        let stated = match glyph {
            0x20 | 0x7E | 0xA0 | 0xA1 => (0, 0),
            _ => (13, place),
        };
        for (kind, coloured) in [("plain", false), ("coloured", true)] {
            let request = whole(Rc::clone(&subject), coloured);
            cases.ask(format!("a box named {glyph:04X}, {kind}"), request, stated);
        }
    }
}

/// 13 wins over 11; and for no rows at all the glyphs are looked at too.
fn pasted_and_beyond(cases: &mut Cases) {
    let (subject, place) = pasted(0x1B);
    for (first, rows) in [(0, 10), (9, 1), (u64::MAX, 1), (0, 0), (9, 0)] {
        for (kind, coloured) in [("plain", false), ("coloured", true)] {
            let request = Request {
                rows: Rows::Band { first, rows },
                ..whole(Rc::clone(&subject), coloured)
            };
            let name = format!("a box named 001B, {rows} rows from {first} of nine, {kind}");
            cases.ask(name, request, (13, place));
        }
    }
}

/// 13 wins over 12, whichever buffer is short.
fn pasted_and_short(cases: &mut Cases) {
    let (subject, place) = pasted(0x1B);
    for (buffer, name) in BUFFER_NAMES.into_iter().enumerate() {
        for (kind, coloured) in [("plain", false), ("coloured", true)] {
            let mut request = band(Rc::clone(&subject), coloured, (3, 2));
            request.lent[buffer] -= 2;
            let name = format!("a box named 001B, {name} short by 1, {kind}");
            cases.ask(name, request, (13, place));
        }
    }
}
