//! One node, one subgraph or the placed labels of one edge: every look, border,
//! position and policy, and labels that fit, do not fit, are wide or without width.

use super::Cases;
use crate::draft::{edge_record, Draft};
use crate::layout::{
    path_flags, BLANK, BOXED, DIRECT, DUMMY, EDGES, HEADER_FLAGS_WORD, INSIDE_BOTTOM_BIT,
    LABEL_PRESENT_BIT, NODES, PLACED_LABELS, SELF_LOOP_BIT, SHOW_DUMMIES_BIT, SIMPLE, SUBGRAPHS,
    WIDTH_RANGES,
};

/// A of width 1, an accent of width 0 and a wide character, by the ranges below.
pub const LABELS: [(&str, &str); 8] = [
    ("no label", ""),
    ("A", "A"),
    ("ABC", "ABC"),
    ("wide", "\u{6F22}"),
    ("wide, then A", "\u{6F22}A"),
    ("A, then wide", "A\u{6F22}"),
    ("A with accent", "A\u{301}"),
    ("accent alone", "\u{301}"),
];

pub fn add(cases: &mut Cases) {
    nodes(cases);
    node_looks(cases);
    dummies(cases);
    borders(cases);
    subgraph_labels(cases);
    policies(cases);
    placed_labels(cases);
}

/// A sheet whose width ranges make 0300 to 036F of width 0 and 4E00 to 9FFF wide.
pub fn sheet(width: u32, height: u32) -> Draft {
    let mut draft = Draft::blank_sheet(width, height);
    draft.add(WIDTH_RANGES, &[0x300, 0x36F, 0]);
    draft.add(WIDTH_RANGES, &[0x4E00, 0x9FFF, 2]);
    draft
}

pub fn add_node(draft: &mut Draft, [x, y, width, height]: [u32; 4], kind: u32, text: &str) {
    let [start, count] = draft.write(text);
    draft.add(
        NODES,
        &[x, y, width, height, start, count, kind << 30, 0, 0],
    );
}

/// "glyphs until the first that would reach the closing column", and the fitting
/// part of a box.
fn nodes(cases: &mut Cases) {
    for (label, text) in LABELS {
        for (kind, look, height) in [(SIMPLE, "simple", 1), (BOXED, "boxed", 3)] {
            for width in [3, 4, 6] {
                let mut draft = sheet(7, 4);
                add_node(&mut draft, [0, 0, width, height], kind, text);
                let name = format!("{look} node of width {width}, {label}");
                cases.painted(name, &draft);
            }
        }
    }
}

fn node_looks(cases: &mut Cases) {
    for (kind, look) in [(SIMPLE, "simple"), (BOXED, "boxed"), (BLANK, "blank")] {
        for (width, height) in [(0, 0), (1, 3), (2, 2), (2, 3), (9, 9)] {
            let mut draft = sheet(5, 5);
            add_node(&mut draft, [1, 1, width, height], kind, "A");
            let name = format!("{look} node {width} by {height}");
            cases.painted(name, &draft);
            // "Then the self-loop marker, Up."
            draft.tables[NODES][0][6..].copy_from_slice(&[kind << 30 | SELF_LOOP_BIT, 4, 1]);
            let name = format!("{look} node {width} by {height} with self-loop");
            cases.painted(name, &draft);
        }
    }
}

/// "Dummy: a Dummy Up marker if shown, nothing else."
fn dummies(cases: &mut Cases) {
    for (flags, shown) in [(0, "hidden"), (SHOW_DUMMIES_BIT, "shown")] {
        for (more, with) in [([0, 0, 0], ""), ([SELF_LOOP_BIT, 2, 2], " with self-loop")] {
            let mut draft = sheet(3, 3);
            draft.head[HEADER_FLAGS_WORD] = flags;
            add_node(&mut draft, [1, 1, 3, 3], DUMMY, "A");
            draft.tables[NODES][0][6] |= more[0];
            draft.tables[NODES][0][7..].copy_from_slice(&more[1..]);
            cases.painted(format!("{shown} dummy{with}"), &draft);
        }
    }
}

// ---- Subgraphs -----------------------------------------------------------

pub fn add_subgraph(
    draft: &mut Draft,
    [x, y, width, height]: [u32; 4],
    flags: u32,
    colour: u32,
    text: &str,
) {
    let [start, count] = draft.write(text);
    let record = [x, y, width, height, start, count, flags, colour];
    draft.add(SUBGRAPHS, &record);
}

/// "Border if width and height ≥ 2."
fn borders(cases: &mut Cases) {
    for (border, weight) in [(0, "no"), (1, "Dashed"), (2, "Light"), (3, "Double")] {
        for colour in [0, 7] {
            let mut draft = sheet(6, 4);
            add_subgraph(&mut draft, [0, 0, 6, 4], border << 30, colour, "A");
            cases.painted(format!("{weight} border, colour {colour}"), &draft);
        }
    }
    for (width, height) in [(2, 2), (1, 3), (3, 1), (9, 9)] {
        let mut draft = sheet(4, 4);
        add_subgraph(&mut draft, [1, 1, width, height], 2 << 30, 7, "A");
        cases.painted(format!("border {width} by {height}"), &draft);
    }
}

/// "on row y + 1 or y + height − 2"; "Its painting writes no colour."
fn subgraph_labels(cases: &mut Cases) {
    for (position, bit) in [("InsideTop", 0), ("InsideBottom", INSIDE_BOTTOM_BIT)] {
        for (label, text) in LABELS {
            let mut draft = sheet(7, 5);
            add_subgraph(&mut draft, [0, 0, 6, 5], 1 << 30 | bit, 7, text);
            cases.painted(format!("{position} label, {label}"), &draft);
        }
    }
}

// ---- Placed labels -------------------------------------------------------

/// An edge down column 1 of a sheet of nine by four, with a label or without.
fn labelled(text: Option<&str>) -> Draft {
    let mut draft = sheet(9, 4);
    let mut record = edge_record([1, 0, 1, 3], path_flags(DIRECT), [0; 3]);
    if let Some(text) = text {
        record[4] |= LABEL_PRESENT_BIT;
        record[8..10].copy_from_slice(&draft.write(text));
    }
    record[10..].copy_from_slice(&[5, 9]);
    draft.add(EDGES, &record);
    draft
}

/// "Geometric paints if placeable; AvoidNodeRows also needs no node in the row."
fn policies(cases: &mut Cases) {
    for (policy, bit) in [("Geometric", 0), ("AvoidNodeRows", 1 << 31)] {
        for flags in 0..4 {
            let mut draft = labelled(Some("oil"));
            draft.head[HEADER_FLAGS_WORD] = bit;
            draft.add(PLACED_LABELS, &[0, 1, 1, flags << 30]);
            let placeable = if flags & 2 == 0 {
                "not placeable"
            } else {
                "placeable"
            };
            let row = if flags & 1 == 0 { "no node" } else { "a node" };
            let name = format!("{policy}, {placeable}, {row} in the row");
            cases.painted(name, &draft);
        }
    }
}

/// "`\"`, all glyphs, `\"`"; "An edge that has no label present paints nothing for
/// it."
fn placed_labels(cases: &mut Cases) {
    let placeable = 1 << 31;
    for (label, text) in LABELS {
        let mut draft = labelled(Some(text));
        draft.add(PLACED_LABELS, &[0, 1, 1, placeable]);
        cases.painted(format!("placed label, {label}"), &draft);
    }
    let mut draft = labelled(None);
    draft.add(PLACED_LABELS, &[0, 1, 1, placeable]);
    cases.painted("placed label of an edge without label", &draft);
    for (name, text, x) in [
        ("over the last column", "ABCD", 5),
        ("a wide glyph in the last column", "\u{6F22}", 7),
        ("right of the sheet", "A", 9),
    ] {
        let mut draft = labelled(Some(text));
        draft.add(PLACED_LABELS, &[0, x, 1, placeable]);
        cases.painted(format!("placed label {name}"), &draft);
    }
    let mut draft = labelled(Some("\u{6F22}\u{6F22}"));
    for (x, y) in [(0, 1), (1, 1), (3, 2), (0, 9)] {
        draft.add(PLACED_LABELS, &[0, x, y, placeable]);
    }
    cases.painted("four placed labels of one edge", &draft);
}
