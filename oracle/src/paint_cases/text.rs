//! Bands as text: strokes of every kind, characters of every length, wide characters, colours
//! and where they change, bands, and the room of the output. Small drawings are stated by
//! hand.

use super::bands::{everything, medley};
use super::things::{add_node, add_subgraph, sheet};
use super::{band, subject_of, whole, Cases};
use crate::draft::{edge_record, Draft};
use crate::every_stroke::every_stroke;
use crate::generate::EDGE_COLOURS;
use crate::layout::{
    BOXED, DIRECT, DUMMY, EDGES, END_MARKER_BIT, HEADER_FLAGS_WORD, LABEL_PRESENT_BIT, NODES,
    PLACED_LABELS, SELF_LOOP_BIT, SHOW_DUMMIES_BIT, SIMPLE, START_MARKER_BIT, X_FLOW_BIT,
};
use crate::limits::broken_for;
use crate::requests::{Request, Rows, Subject, BUFFER_NAMES};
use std::rc::Rc;

const KINDS: [(&str, bool); 2] = [("plain text", false), ("coloured text", true)];

pub fn add(cases: &mut Cases) {
    strokes_of_every_kind(cases);
    drawings(cases);
    wide_drawings(cases);
    coloured_drawings(cases);
    characters(cases);
    colours_side_by_side(cases);
    bands(cases);
    no_cells(cases);
    outputs(cases);
    in_the_short_form(cases);
    refused_by_the_check(cases);
    refused_by_painting(cases);
}

/// As text, with so many bytes of output beyond the room.
fn as_text(request: Request, beyond: usize) -> Request {
    let (_, rows) = request.first_and_rows();
    let room = request.subject.output_room(rows, request.coloured);
    Request {
        output: Some(room + beyond),
        ..request
    }
}

/// The whole sheet, plain and coloured, as these drawings.
fn drawn(cases: &mut Cases, name: &str, draft: &Draft, drawings: [&'static str; 2]) {
    let subject = subject_of(draft);
    for ((kind, coloured), drawing) in KINDS.into_iter().zip(drawings) {
        let request = as_text(whole(Rc::clone(&subject), coloured), 3);
        cases.ask_drawn(format!("{name}, {kind}"), request, drawing);
    }
}

// ---- Strokes ---------------------------------------------------------------

fn strokes_of_every_kind(cases: &mut Cases) {
    let subject = subject_of(&every_stroke());
    for (kind, coloured) in KINDS {
        let request = as_text(whole(Rc::clone(&subject), coloured), 3);
        cases.ask(format!("strokes of every kind, {kind}"), request, (0, 0));
    }
}

// ---- Drawings ----------------------------------------------------------------

fn drawings(cases: &mut Cases) {
    let mut draft = sheet(6, 3);
    add_node(&mut draft, [0, 0, 5, 3], BOXED, "A\u{301}");
    let box_of_a = "┌───┐ \n│ A │ \n└───┘ \n";
    drawn(cases, "a box named A with accent", &draft, [box_of_a; 2]);
    let mut draft = sheet(4, 2);
    draft.head[HEADER_FLAGS_WORD] = SHOW_DUMMIES_BIT;
    add_node(&mut draft, [0, 0, 1, 1], DUMMY, "");
    add_node(&mut draft, [1, 1, 2, 1], SIMPLE, "");
    draft.tables[NODES][1][6..].copy_from_slice(&[SELF_LOOP_BIT, 3, 1]);
    let markers = "◍   \n []↺\n";
    drawn(cases, "dummy and self-loop", &draft, [markers; 2]);
    arrows(cases);
}

/// Dashed where the edge is reversed; written alike.
fn arrows(cases: &mut Cases) {
    for (name, more) in [("arrows", 0), ("arrows of reversed edges", 1 << 27)] {
        let mut draft = Draft::blank_sheet(7, 5);
        let both = START_MARKER_BIT | END_MARKER_BIT | 2 << 23 | more;
        let upright = edge_record([0, 0, 0, 4], DIRECT << 29 | both, [0; 3]);
        let level = edge_record([2, 2, 6, 2], DIRECT << 29 | X_FLOW_BIT | both, [0; 3]);
        draft.add(EDGES, &upright);
        draft.add(EDGES, &level);
        let drawing = "       \n↑      \n│  ←─→ \n↓      \n       \n";
        drawn(cases, name, &draft, [drawing; 2]);
    }
}

/// "A continuation writes nothing": two columns, one character.
fn wide_drawings(cases: &mut Cases) {
    let mut draft = sheet(6, 1);
    add_node(&mut draft, [0, 0, 6, 1], SIMPLE, "\u{6F22}\u{6F22}");
    drawn(cases, "two wide characters", &draft, ["[漢漢]\n"; 2]);
    add_node(&mut draft, [2, 0, 2, 1], SIMPLE, "");
    let halves = "[ [] ]\n";
    drawn(cases, "two halves covered", &draft, [halves; 2]);
    for (width, drawing) in [
        (3, "   \n  A\n   \n"),
        (4, "    \n  A \n    \n"),
        (5, "     \n  A漢\n     \n"),
        (6, "      \n  A漢 \n      \n"),
        (7, "       \n  A漢漢\n       \n"),
    ] {
        let mut draft = sheet(width, 3);
        add_subgraph(&mut draft, [0, 0, 9, 3], 0, 0, "A\u{6F22}\u{6F22}");
        let name = format!("wide label on {width} columns");
        drawn(cases, &name, &draft, [drawing; 2]);
    }
}

/// "only where a written cell's colour changes, each row starting and ending at 0"
fn coloured_drawings(cases: &mut Cases) {
    let mut draft = sheet(12, 3);
    for (nth, colour) in [(0, 1), (1, 8), (2, 256)] {
        let frame = [4 * nth, 0, 4, 3];
        add_subgraph(&mut draft, frame, (1 + nth) << 30, colour, "");
    }
    let plain = "┌┈┈┐┌──┐╔══╗\n┊  ┊│  │║  ║\n└┈┈┘└──┘╚══╝\n";
    let coloured = "\x1B[31m┌┈┈┐\x1B[38;5;8m┌──┐\x1B[38;2;0;1;0m╔══╗\x1B[0m\n\
        \x1B[31m┊\x1B[0m  \x1B[31m┊\x1B[38;5;8m│\x1B[0m  \x1B[38;5;8m│\
        \x1B[38;2;0;1;0m║\x1B[0m  \x1B[38;2;0;1;0m║\x1B[0m\n\
        \x1B[31m└┈┈┘\x1B[38;5;8m└──┘\x1B[38;2;0;1;0m╚══╝\x1B[0m\n";
    drawn(cases, "borders of three weights", &draft, [plain, coloured]);
    // The label writes no colour: its second column keeps that of the second line.
    let mut draft = sheet(6, 3);
    for (x, colour) in [(2, 5), (3, 9), (4, 5)] {
        let mut record = edge_record([x, 0, x, 2], DIRECT << 29 | 2 << 23, [0; 3]);
        record[10] = colour;
        draft.add(EDGES, &record);
    }
    add_subgraph(&mut draft, [0, 0, 6, 3], 0, 0, "\u{6F22}");
    let coloured = "      \n  \x1B[35m漢│\x1B[0m \n      \n";
    let name = "a second column of another colour";
    drawn(cases, name, &draft, ["      \n  漢│ \n      \n", coloured]);
    draft.head[0] = 4;
    let coloured = "    \n  \x1B[35m漢\x1B[0m\n    \n";
    let name = "a last column of another colour";
    drawn(cases, name, &draft, ["    \n  漢\n    \n", coloured]);
}

// ---- Characters and colours --------------------------------------------------

/// The first and last of each length, and those beside what is no glyph.
fn characters(cases: &mut Cases) {
    let name = "\u{20}\u{7E}\u{A0}\u{7FF}\u{800}\u{D7FF}\u{E000}\u{FFFF}\u{10000}\u{10FFFF}";
    let mut draft = Draft::blank_sheet(12, 1);
    add_node(&mut draft, [0, 0, 12, 1], SIMPLE, name);
    let drawing = "[\u{20}\u{7E}\u{A0}\u{7FF}\u{800}\u{D7FF}\u{E000}\u{FFFF}\u{10000}\u{10FFFF}]\n";
    drawn(cases, "characters of each length", &draft, [drawing; 2]);
}

/// Quotes of placed labels, two columns of each colour; each colour twice in a row, then once
/// more on the next.
fn colours_side_by_side(cases: &mut Cases) {
    let mut draft = Draft::blank_sheet(2 * EDGE_COLOURS.len() as u32, 3);
    for (nth, colour) in (0..).zip(EDGE_COLOURS) {
        let x = 2 * nth;
        let flags = DIRECT << 29 | 2 << 23 | LABEL_PRESENT_BIT;
        let mut record = edge_record([x, 2, x, 2], flags, [0; 3]);
        record[11] = colour;
        let edge = draft.add(EDGES, &record);
        draft.add(PLACED_LABELS, &[edge, x, 0, 1 << 31]);
        draft.add(PLACED_LABELS, &[edge, (x + 5) % 29, 1, 1 << 31]);
    }
    let subject = subject_of(&draft);
    for (kind, coloured) in KINDS {
        let request = as_text(whole(Rc::clone(&subject), coloured), 3);
        cases.ask(format!("colours side by side, {kind}"), request, (0, 0));
    }
}

// ---- Bands -------------------------------------------------------------------

fn bands(cases: &mut Cases) {
    let subject = subject_of(&medley());
    for (name, rows) in [
        ("all rows", (0, 9)),
        ("the first row", (0, 1)),
        ("the last row", (8, 1)),
        ("no row at the top", (0, 0)),
        ("no row below the last", (9, 0)),
        ("three rows in the middle", (3, 3)),
        ("the row with the runs", (5, 1)),
    ] {
        for (kind, coloured) in KINDS {
            let request = as_text(band(Rc::clone(&subject), coloured, rows), 3);
            cases.ask(format!("of nine rows {name}, {kind}"), request, (0, 0));
        }
    }
    let flags = 1 << 31 | SHOW_DUMMIES_BIT;
    for (flow, draft) in [("Y", everything(false, 0)), ("X", everything(true, flags))] {
        let subject = subject_of(&draft);
        for (kind, coloured) in KINDS {
            let request = as_text(whole(Rc::clone(&subject), coloured), 0);
            cases.ask(format!("everything along {flow}, {kind}"), request, (0, 0));
        }
    }
}

/// A row without columns is a line feed; no rows are no byte.
fn no_cells(cases: &mut Cases) {
    for (width, height, rows) in [(0, 0, 0), (0, 3, 3), (0, 3, 2), (3, 0, 0), (3, 2, 0)] {
        let subject = subject_of(&Draft::blank_sheet(width, height));
        for (kind, coloured) in KINDS {
            for (name, beyond) in [("just the output", 0), ("four bytes more", 4)] {
                let request = band(Rc::clone(&subject), coloured, (0, rows));
                let request = as_text(
                    Request {
                        lent: [0; 4],
                        ..request
                    },
                    beyond,
                );
                let name = format!("sheet {width} by {height}, {rows} rows, {name}, {kind}");
                cases.ask(name, request, (0, 0));
            }
        }
    }
}

// ---- The output --------------------------------------------------------------

/// Two rows of the medley, with just the room.
fn two_rows(coloured: bool) -> Request {
    let request = band(subject_of(&medley()), coloured, (3, 2));
    let lent = request.subject.room(2);
    as_text(Request { lent, ..request }, 0)
}

/// "20, place 0, output under rows × (4 × width + 1) bytes", which are 82 here; of the
/// coloured form 470.
fn outputs(cases: &mut Cases) {
    for ((kind, coloured), room) in KINDS.into_iter().zip([82, 470]) {
        for output in [
            0,
            1,
            room / 2,
            room - 2,
            room - 1,
            room,
            room + 1,
            room + 40,
        ] {
            let request = Request {
                output: Some(output),
                ..two_rows(coloured)
            };
            let stated = if output < room { (20, 0) } else { (0, 0) };
            cases.ask(format!("{output} bytes of output, {kind}"), request, stated);
        }
    }
    // Also where a text would fit, and where it is empty but for line feeds.
    let subject = subject_of(&Draft::blank_sheet(0, 3));
    for ((kind, coloured), room) in KINDS.into_iter().zip([3, 15]) {
        let request = Request {
            output: Some(room - 1),
            ..whole(Rc::clone(&subject), coloured)
        };
        let name = format!("three rows without columns, a byte short, {kind}");
        cases.ask(name, request, (20, 0));
    }
}

fn in_the_short_form(cases: &mut Cases) {
    let mut wide = sheet(1_024, 3);
    add_subgraph(&mut wide, [1, 0, 1_022, 3], 1 << 30, 300, "The whole width");
    for (name, draft) in [("nine rows", medley()), ("1,024 columns", wide)] {
        let subject = subject_of(&draft);
        for (kind, coloured) in KINDS {
            let request = as_text(whole(Rc::clone(&subject), coloured), 5);
            cases.ask_short(format!("{name} in the short form, {kind}"), request);
        }
    }
}

/// "after all of 01's": the check's codes win over 20.
fn refused_by_the_check(cases: &mut Cases) {
    for code in [1, 2, 3, 4, 5, 13, 6, 7, 8, 9, 10] {
        let (words, place) = broken_for(&[code]);
        let subject = Rc::new(Subject::checked(words));
        for ((kind, coloured), output) in KINDS.into_iter().zip([0, 9]) {
            let request = Request {
                subject: Rc::clone(&subject),
                rows: Rows::Band { first: 0, rows: 1 },
                coloured,
                output: Some(output),
                lent: [3; 4],
            };
            let name = format!("refused for code {code}, {output} bytes of output, {kind}");
            cases.ask(name, request, (code, place));
        }
    }
}

/// 11 and 12 win over 20, whichever buffer is short; neither is touched by a long output.
fn refused_by_painting(cases: &mut Cases) {
    for (kind, coloured) in KINDS {
        for output in [0, 600] {
            for (first, rows) in [(9, 1), (0, 10), (1 << 63, 1 << 63), (u64::MAX, u64::MAX)] {
                let request = Request {
                    output: Some(output),
                    rows: Rows::Band { first, rows },
                    ..two_rows(coloured)
                };
                let band = format!("{rows} rows from {first} of nine");
                let name = format!("{band}, {output} bytes of output, {kind}");
                cases.ask(name, request, (11, 0));
            }
            for (buffer, name) in BUFFER_NAMES.into_iter().enumerate() {
                let mut request = two_rows(coloured);
                request.lent[buffer] -= 1;
                request.output = Some(output);
                // A plain request lends neither colours nor stamps.
                let stated = match request.buffers().contains(&buffer) {
                    true => (12, buffer as u32 + 1),
                    false if output == 0 => (20, 0),
                    false => (0, 0),
                };
                let name = format!("{name} short by 1, {output} bytes of output, {kind}");
                cases.ask(name, request, stated);
            }
        }
    }
}
