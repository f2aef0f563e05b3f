//! Whole sheets in one call: bands of each height on sheets whose elements come and go, just the
//! room and more, and every refusal, alone and beside others.

use super::bands::{everything, medley};
use super::refused::pasted;
use super::things::{add_node, add_subgraph, sheet};
use super::{subject_of, Cases};
use crate::draft::{edge_record, Draft};
use crate::generate::accepted_draft;
use crate::layout::{
    path_flags, BOXED, COORDINATE_LIMIT, CORNER, DIRECT, EDGES, ELEMENTS, END_MARKER_BIT,
    HEADER_LIMITS, MULTI_SEGMENT, NODES, ORTHOGONAL, RUN_CAPACITY_WORD, SHOW_DUMMIES_BIT,
    SIDE_CHANNEL, SIMPLE, START_MARKER_BIT, X_FLOW_BIT,
};
use crate::limits::broken_for;
use crate::paintlines::MOST;
use crate::requests::{Request, Rows, Subject, BUFFER_NAMES, SCRATCH};
use std::rc::Rc;

const KINDS: [(&str, bool); 2] = [("plain", false), ("coloured", true)];

/// One more than 32 bits hold.
const WORD: u64 = 1 << 32;

pub fn add(cases: &mut Cases) {
    band_heights(cases);
    of_everything(cases);
    comings_and_goings(cases);
    listed_for_more_rows(cases);
    pasted_names(cases);
    no_cells(cases);
    the_widest(cases);
    the_tallest(cases);
    the_most_runs(cases);
    in_the_short_form(cases);
    beyond_the_room(cases);
    one_buffer_short(cases);
    scratch_by_the_word(cases);
    several_short(cases);
    band_height_0(cases);
    refused_by_the_check(cases);
}

/// All rows in one call, each buffer a word longer than needed.
fn in_bands_of(band: u64, subject: &Rc<Subject>, coloured: bool) -> Request {
    let lent = subject.sheet_room().map(|wanted| wanted + 1);
    Request {
        subject: Rc::clone(subject),
        rows: Rows::Sheet { band },
        coloured,
        output: None,
        lent,
    }
}

/// A sheet that is painted, in bands of each of these heights, plain and coloured.
fn painted(cases: &mut Cases, name: &str, subject: &Rc<Subject>, bands: &[u64]) {
    for band in bands {
        for (kind, coloured) in KINDS {
            let request = in_bands_of(*band, subject, coloured);
            let name = format!("sheet of {name} in bands of {band}, {kind}");
            cases.ask(name, request, (0, 0));
        }
    }
}

/// The same in the short form.
fn painted_short(cases: &mut Cases, name: &str, subject: &Rc<Subject>, bands: &[u64]) {
    for band in bands {
        for (kind, coloured) in KINDS {
            let request = in_bands_of(*band, subject, coloured);
            let name = format!("sheet of {name} in bands of {band}, short form, {kind}");
            cases.ask_short(name, request);
        }
    }
}

// ---- Bands -------------------------------------------------------------------

/// Of nine rows: those that part them evenly or not, just all of them, one more, and numbers
/// that would be 0 or small again in 32 bits.
fn band_heights(cases: &mut Cases) {
    let few = [1, 2, 3, 4, 5, 7, 8, 9, 10, 13];
    let many = [WORD - 1, WORD, WORD + 1, 1 << 63, u64::MAX - 1, u64::MAX];
    let bands = [&few[..], &many].concat();
    painted(cases, "nine rows", &subject_of(&medley()), &bands);
}

fn of_everything(cases: &mut Cases) {
    let flags = 1 << 31 | SHOW_DUMMIES_BIT;
    for (flow, draft) in [("Y", everything(false, 0)), ("X", everything(true, flags))] {
        let name = format!("everything along {flow}");
        painted(cases, &name, &subject_of(&draft), &[1, 3, 7, 8, 13, 14, 15]);
    }
}

/// Eight columns and forty rows: things that begin and end all over it, some of them on the
/// edges of bands, inside a border that goes on to the last row.
fn stairs() -> Draft {
    let mut draft = sheet(8, 40);
    add_subgraph(&mut draft, [0, 0, 8, 40], 1 << 30, 6, "All\u{6F22}");
    add_subgraph(&mut draft, [1, 4, 6, 9], 3 << 30, 0, "");
    let steps = [0, 3, 6, 7, 8, 14, 15, 16, 23, 24, 25, 31, 32, 39];
    for (nth, y) in (0..).zip(steps) {
        add_node(&mut draft, [nth % 4, y, 4, 1], SIMPLE, "\u{6F22}");
    }
    add_node(&mut draft, [2, 18, 5, 3], BOXED, "B");
    add_node(&mut draft, [1, 26, 4, 6], BOXED, "C");
    add_node(&mut draft, [1, 50, 4, 1], SIMPLE, "D");
    add_lines(&mut draft);
    // The last node stands below the sheet, and is listed all the same.
    let mut draft = accepted_draft(&draft);
    let below = draft.count(NODES) - 1;
    draft.list(NODES, below, 50, 50);
    draft
}

/// Long ones and short ones, down and up, one of them from below the sheet.
fn add_lines(draft: &mut Draft) {
    let [first, count] = draft.add_points([[6, 12], [2, 22]]);
    let both = START_MARKER_BIT | END_MARKER_BIT;
    let lines = [
        (DIRECT, both, [3, 1, 3, 38], [0; 3]),
        (CORNER, END_MARKER_BIT, [1, 5, 6, 17], [9, 0, 0]),
        (CORNER, both, [6, 33, 1, 9], [21, 0, 0]),
        (SIDE_CHANNEL, both, [5, 2, 5, 30], [7, 10, 27]),
        (MULTI_SEGMENT, 0, [1, 2, 5, 36], [first, count, 1]),
        (ORTHOGONAL, both, [4, 6, 4, 35], [first, count, 0]),
        (DIRECT, X_FLOW_BIT, [0, 16, 7, 16], [0; 3]),
        (DIRECT, 0, [5, 45, 5, 37], [0; 3]),
    ];
    for (nth, (path, more, ends, abc)) in (0..).zip(lines) {
        let mut record = edge_record(ends, path_flags(path) | more, abc);
        record[10] = 20 + nth;
        draft.add(EDGES, &record);
    }
}

fn comings_and_goings(cases: &mut Cases) {
    let subject = Rc::new(Subject::painted(stairs().to_words()));
    painted(cases, "stairs", &subject, &[1, 3, 7, 8, 13, 20, 39, 40, 41]);
    let bands = [2, 5, 10, 16, 17, 25, 32, 33];
    painted_short(cases, "stairs", &subject, &bands);
}

/// "A listing for more rows than are touched" selects more, and paints the same.
fn listed_for_more_rows(cases: &mut Cases) {
    for (name, more) in [("three rows", 3), ("all rows", COORDINATE_LIMIT)] {
        let mut draft = stairs();
        for element in &mut draft.tables[ELEMENTS] {
            element[2] = element[2].saturating_sub(more);
            element[3] = (element[3] + more).min(COORDINATE_LIMIT);
        }
        let subject = Rc::new(Subject::painted(draft.to_words()));
        let name = format!("stairs listed {name} wider");
        painted_short(cases, &name, &subject, &[1, 3, 8, 13, 40]);
    }
}

/// Glyphs just outside of what code 13 refuses, and one that it refuses.
fn pasted_names(cases: &mut Cases) {
    for glyph in [0x1B, 0x20, 0x7E, 0xA0] {
        let (subject, place) = pasted(glyph);
        let stated = match glyph {
            0x1B => (13, place),
            _ => (0, 0),
        };
        for (kind, coloured) in KINDS {
            let request = in_bands_of(3, &subject, coloured);
            let name = format!("sheet with a box named {glyph:04X}, {kind}");
            cases.ask(name, request, stated);
        }
    }
}

/// Sheets without columns or rows: nothing is wanted but scratch for what is listed.
fn no_cells(cases: &mut Cases) {
    for (width, height) in [(0, 0), (0, 3), (3, 0)] {
        let empty = Draft::blank_sheet(width, height);
        let mut listed = empty.clone();
        let upright = edge_record([1, 0, 1, 3], path_flags(DIRECT), [0; 3]);
        listed.add(EDGES, &upright);
        listed.list(EDGES, 0, 0, 3);
        for (what, draft, scratch) in [("empty", empty, 0), ("with one edge", listed, 2)] {
            let subject = Rc::new(Subject::painted(draft.to_words()));
            let name = format!("sheet {width} by {height}, {what}");
            for (kind, coloured) in KINDS {
                let mut ask = |words: usize, band: u64, stated: (u32, u32)| {
                    let request = Request {
                        lent: [0, 0, 0, words],
                        ..in_bands_of(band, &subject, coloured)
                    };
                    let name = format!("{name}, {words} words of scratch, bands of {band}, {kind}");
                    cases.ask(name, request, stated);
                };
                for band in [1, 2, 3, u64::MAX] {
                    ask(scratch, band, (0, 0));
                }
                ask(scratch + 3, 1, (0, 0));
                ask(scratch, 0, (11, 1));
                if scratch > 0 {
                    ask(scratch - 1, 1, (12, 4));
                    ask(0, 0, (11, 1));
                }
            }
        }
    }
}

/// As many cells as the program lends; a row more is refused, for cells is the first place.
fn the_widest(cases: &mut Cases) {
    for (height, stated) in [(144, (0, 0)), (145, (12, 1))] {
        let mut draft = sheet(1_024, height);
        add_subgraph(&mut draft, [0, 0, 1_024, height], 2 << 30, 9, "The largest");
        let subject = subject_of(&draft);
        for band in [1, 8, 144] {
            for (kind, coloured) in KINDS {
                let mut request = in_bands_of(band, &subject, coloured);
                request.lent = [MOST.words, MOST.words, MOST.words, 2];
                let name = format!("sheet of 1,024 by {height} in bands of {band}, {kind}");
                cases.ask_in_short(name, request, stated);
            }
        }
    }
}

/// As many rows as a sheet can have, with something on the first and on the last, and in bands
/// of a row less, of all and of a row more.
fn the_tallest(cases: &mut Cases) {
    let rows = COORDINATE_LIMIT;
    let mut draft = sheet(4, rows);
    for y in [0, rows / 2, rows - 1] {
        add_node(&mut draft, [0, y, 4, 1], SIMPLE, "\u{6F22}");
    }
    let flags = path_flags(DIRECT) | END_MARKER_BIT;
    draft.add(EDGES, &edge_record([1, rows - 9, 1, rows], flags, [0; 3]));
    let subject = subject_of(&draft);
    let rows = u64::from(rows);
    let bands = [1, 8, rows - 1, rows, rows + 1];
    painted_short(cases, "4 by 32,767", &subject, &bands);
}

/// The greatest run capacity.
fn the_most_runs(cases: &mut Cases) {
    let mut draft = accepted_draft(&medley());
    draft.head[RUN_CAPACITY_WORD] = HEADER_LIMITS[RUN_CAPACITY_WORD];
    let subject = Rc::new(Subject::painted(draft.to_words()));
    for (kind, coloured) in KINDS {
        for (words, short_by, stated) in [
            ("just the scratch", 0, (0, 0)),
            ("scratch short by 1", 1, (12, 4)),
        ] {
            let mut request = in_bands_of(3, &subject, coloured);
            request.lent[SCRATCH] -= 1 + short_by;
            let name = format!("sheet of 16,384 runs at most, {words}, {kind}");
            cases.ask_in_short(name, request, stated);
        }
    }
}

fn in_the_short_form(cases: &mut Cases) {
    painted_short(cases, "nine rows", &subject_of(&medley()), &[1, 4, 9]);
}

// ---- Room --------------------------------------------------------------------

/// "success zeroes stamps and the needed scratch"; what lies beyond stays.
fn beyond_the_room(cases: &mut Cases) {
    let subject = subject_of(&medley());
    for (more, name) in [(0, "no word"), (5, "five words"), (40, "forty words")] {
        for (kind, coloured) in KINDS {
            let lent = subject.sheet_room().map(|wanted| wanted + more);
            let request = Request {
                lent,
                ..in_bands_of(4, &subject, coloured)
            };
            cases.ask(
                format!("sheet, {name} beyond the room, {kind}"),
                request,
                (0, 0),
            );
        }
    }
}

/// Just the room that a sheet of nine rows wants.
fn just_the_room(coloured: bool) -> Request {
    let subject = subject_of(&medley());
    let lent = subject.sheet_room();
    Request {
        lent,
        ..in_bands_of(4, &subject, coloured)
    }
}

fn one_buffer_short(cases: &mut Cases) {
    for (kind, coloured) in KINDS {
        for (buffer, name) in BUFFER_NAMES.into_iter().enumerate() {
            // A plain sheet lends neither colours nor stamps.
            let is_lent = just_the_room(coloured).buffers().contains(&buffer);
            let stated = match is_lent {
                true => (12, buffer as u32 + 1),
                false => (0, 0),
            };
            let wanted = just_the_room(coloured).lent[buffer];
            for short_by in [1, 2, wanted] {
                let mut request = just_the_room(coloured);
                request.lent[buffer] -= short_by;
                let name = format!("sheet, {name} short by {short_by}, {kind}");
                cases.ask(name, request, stated);
            }
        }
    }
}

/// "scratch twice 01's element part besides its run part": six elements and five runs want 52
/// words, where a band wants 46.
fn scratch_by_the_word(cases: &mut Cases) {
    for (kind, coloured) in KINDS {
        for words in [0, 40, 45, 46, 47, 51, 52, 53, 60] {
            let mut request = just_the_room(coloured);
            request.lent[SCRATCH] = words;
            let stated = if words < 52 { (12, 4) } else { (0, 0) };
            let name = format!("sheet, {words} words of scratch, {kind}");
            cases.ask(name, request, stated);
        }
    }
}

/// The first short one.
fn several_short(cases: &mut Cases) {
    for (kind, coloured) in KINDS {
        let second = if coloured { 2 } else { 4 };
        let third = if coloured { 3 } else { 4 };
        for (name, short, place) in [
            ("all", [1, 1, 1, 1], 1),
            ("all but cells", [0, 1, 1, 1], second),
            ("stamps and scratch", [0, 0, 1, 1], third),
            ("cells and scratch", [1, 0, 0, 1], 1),
        ] {
            let mut request = just_the_room(coloured);
            for (lent, short_by) in request.lent.iter_mut().zip(short) {
                *lent -= short_by;
            }
            cases.ask(
                format!("sheet, short: {name}, {kind}"),
                request,
                (12, place),
            );
        }
    }
}

// ---- Refusals ----------------------------------------------------------------

/// "band height 0 is 11, place 1", whatever is lent: it wins over 12.
fn band_height_0(cases: &mut Cases) {
    for (kind, coloured) in KINDS {
        let request = just_the_room(coloured);
        let just = request.lent;
        for (name, lent) in [
            ("just the room", just),
            ("more than the room", just.map(|wanted| wanted + 4)),
            ("nothing lent", [0; 4]),
            ("cells short", [just[0] - 1, just[1], just[2], just[3]]),
            ("colours short", [just[0], just[1] - 1, just[2], just[3]]),
            ("stamps short", [just[0], just[1], just[2] - 1, just[3]]),
            ("scratch short", [just[0], just[1], just[2], just[3] - 1]),
        ] {
            let rows = Rows::Sheet { band: 0 };
            let request = Request {
                rows,
                lent,
                ..request.clone()
            };
            cases.ask(
                format!("sheet in bands of 0, {name}, {kind}"),
                request,
                (11, 1),
            );
        }
    }
}

/// The check's codes win over 11 and 12.
fn refused_by_the_check(cases: &mut Cases) {
    for code in [1, 2, 3, 4, 5, 13, 6, 7, 8, 9, 10] {
        let (words, place) = broken_for(&[code]);
        let subject = Rc::new(Subject::checked(words));
        for (name, band, lent) in [
            ("enough lent", 2, [40; 4]),
            ("nothing lent", u64::MAX, [0; 4]),
            ("in bands of 0", 0, [40; 4]),
            ("in bands of 0, little lent", 0, [1, 2, 3, 4]),
        ] {
            for (kind, coloured) in KINDS {
                let request = Request {
                    lent,
                    ..in_bands_of(band, &subject, coloured)
                };
                let name = format!("sheet refused for code {code}, {name}, {kind}");
                cases.ask(name, request, (code, place));
            }
        }
    }
}
