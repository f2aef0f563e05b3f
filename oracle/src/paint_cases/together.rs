//! Things that meet on a cell: strokes, arrows and text over one another, runs that
//! share cells, colours and stamps, wide characters half covered.

use super::things::{add_node, add_subgraph, sheet};
use super::{Cases, WEIGHTS};
use crate::draft::{edge_record, Draft};
use crate::layout::{
    CORNER, DIRECT, DUMMY, EDGES, END_MARKER_BIT, HEADER_FLAGS_WORD, LABEL_PRESENT_BIT, NODES,
    ORTHOGONAL, PLACED_LABELS, SELF_LOOP_BIT, SHOW_DUMMIES_BIT, SIMPLE, START_MARKER_BIT,
    SUBGRAPHS, X_FLOW_BIT,
};

const BOTH: u32 = START_MARKER_BIT | END_MARKER_BIT;

pub fn add(cases: &mut Cases) {
    strokes(cases);
    arrows(cases);
    runs_together(cases);
    runs_and_stamps(cases);
    borders(cases);
    under_text(cases);
    wide_text(cases);
    labels_in_order(cases);
}

/// An edge with a colour of its own, and no points.
fn edge(draft: &mut Draft, path: u32, ends: [u32; 4], abc: [u32; 3], flags: u32) {
    let mut record = edge_record(ends, path << 29 | flags, abc);
    record[10] = 0x100 + draft.count(EDGES);
    draft.add(EDGES, &record);
}

/// Down column 2 of a sheet of five by five.
fn upright(draft: &mut Draft, weight: u32, more: u32) {
    edge(draft, DIRECT, [2, 0, 2, 4], [0; 3], weight << 23 | more);
}

/// Along row 2.
fn level(draft: &mut Draft, weight: u32, more: u32) {
    let flags = X_FLOW_BIT | weight << 23 | more;
    edge(draft, DIRECT, [0, 2, 4, 2], [0; 3], flags);
}

/// "A stroke on a stroke takes the greater weight per arm"; the later edge's
/// colour.
fn strokes(cases: &mut Cases) {
    for (one, first) in WEIGHTS {
        for (other, second) in WEIGHTS {
            let mut draft = Draft::blank_sheet(5, 5);
            upright(&mut draft, one, 0);
            level(&mut draft, other, 0);
            level(&mut draft, one, 0);
            cases.painted(format!("{first} and {second} strokes cross"), &draft);
        }
    }
}

/// "On text or a marker it does nothing without a Double arm"; "A marker replaces
/// all but text."
fn arrows(cases: &mut Cases) {
    for (weight, name) in WEIGHTS {
        for (order, arrow_first) in [("over", true), ("under", false)] {
            let mut draft = Draft::blank_sheet(5, 5);
            let arrow = |draft: &mut Draft| {
                let flags = 2 << 23 | END_MARKER_BIT;
                edge(draft, DIRECT, [2, 0, 2, 3], [0; 3], flags);
            };
            if arrow_first {
                arrow(&mut draft);
            }
            level(&mut draft, weight, 0);
            if !arrow_first {
                arrow(&mut draft);
            }
            cases.painted(format!("{name} stroke {order} an arrow"), &draft);
        }
        let mut draft = Draft::blank_sheet(5, 5);
        level(&mut draft, weight, BOTH);
        edge(
            &mut draft,
            DIRECT,
            [0, 2, 2, 2],
            [0; 3],
            X_FLOW_BIT | 2 << 23 | BOTH,
        );
        cases.painted(format!("arrows over {name} arrows"), &draft);
    }
}

/// A crossing on row 2 between these columns; `more` are flags besides the weight.
fn crossing(draft: &mut Draft, [x, to_x]: [u32; 2], weight: u32, more: u32) {
    let ends = [x, 0, to_x, 4];
    edge(draft, CORNER, ends, [2, 0, 0], weight << 23 | more);
}

/// "each inked cell gets left and right arms of the heaviest covering weight, and
/// takes the colour of the highest-numbered covering edge"
fn runs_together(cases: &mut Cases) {
    let sets: [(&str, &[([u32; 2], u32)]); 7] = [
        ("two, the heavier first", &[([0, 6], 3), ([1, 7], 1)]),
        ("two, the heavier last", &[([0, 6], 1), ([1, 7], 3)]),
        ("two that coincide", &[([0, 6], 2), ([0, 6], 2)]),
        ("two from both sides", &[([0, 6], 2), ([6, 0], 3)]),
        (
            "one inside another",
            &[([0, 7], 1), ([2, 5], 3), ([3, 5], 2)],
        ),
        (
            "three side by side",
            &[([0, 3], 1), ([3, 5], 2), ([5, 7], 3)],
        ),
        ("past the last column", &[([3, 20], 2), ([5, 9], 3)]),
    ];
    for (name, runs) in sets {
        let mut draft = Draft::blank_sheet(8, 5);
        for (columns, weight) in runs {
            crossing(&mut draft, *columns, *weight, 0);
        }
        cases.painted(format!("runs on a row: {name}"), &draft);
    }
}

/// "only if that number exceeds the stamp": strokes of earlier and later edges in
/// the way of a run.
fn runs_and_stamps(cases: &mut Cases) {
    for (weight, name) in WEIGHTS {
        for (order, before) in [("before", true), ("after", false)] {
            let mut draft = Draft::blank_sheet(8, 5);
            let stroke = |draft: &mut Draft| {
                edge(draft, DIRECT, [3, 0, 3, 4], [0; 3], weight << 23);
                let flags = 2 << 23 | END_MARKER_BIT;
                edge(draft, DIRECT, [5, 0, 5, 3], [0; 3], flags);
            };
            if before {
                stroke(&mut draft);
            }
            crossing(&mut draft, [0, 7], weight, 0);
            if !before {
                stroke(&mut draft);
            }
            let name = format!("{name} run, strokes and an arrow by edges {order} it");
            cases.painted(name, &draft);
        }
    }
    // Between two runs: one is above the stamp, the other below it.
    let mut draft = Draft::blank_sheet(8, 5);
    crossing(&mut draft, [0, 6], 3, 0);
    edge(&mut draft, DIRECT, [3, 0, 3, 4], [0; 3], 2 << 23);
    crossing(&mut draft, [1, 7], 1, 0);
    cases.painted("a stroke between two runs", &draft);
    let mut draft = Draft::blank_sheet(8, 5);
    crossing(&mut draft, [0, 6], 2, 0);
    for record in &mut draft.tables[EDGES] {
        record[10] = 0;
    }
    add_subgraph(&mut draft, [0, 2, 8, 2], 2 << 30, 7, "");
    cases.painted("a run of colour 0 over a border", &draft);
}

/// "colour (0 keeps what is there)"
fn borders(cases: &mut Cases) {
    for colour in [0, 9] {
        let mut draft = sheet(6, 5);
        add_subgraph(&mut draft, [0, 0, 5, 4], 1 << 30, 7, "AB");
        add_subgraph(&mut draft, [1, 1, 5, 4], 3 << 30, colour, "C");
        cases.painted(format!("two borders, the later of colour {colour}"), &draft);
        draft.tables[SUBGRAPHS].swap(0, 1);
        cases.painted(
            format!("two borders, the earlier of colour {colour}"),
            &draft,
        );
    }
    let mut draft = sheet(5, 5);
    add_subgraph(&mut draft, [0, 2, 5, 3], 2 << 30, 7, "");
    upright(&mut draft, 2, END_MARKER_BIT);
    cases.painted("an edge through a border", &draft);
}

/// "Text replaces everything. Colour is written even where the cell stays."
fn under_text(cases: &mut Cases) {
    for (weight, name) in WEIGHTS {
        let mut draft = sheet(5, 5);
        upright(&mut draft, weight, BOTH);
        add_node(&mut draft, [1, 2, 3, 1], SIMPLE, "A");
        cases.painted(format!("node on a {name} edge"), &draft);
    }
    let mut draft = sheet(5, 5);
    draft.head[HEADER_FLAGS_WORD] = SHOW_DUMMIES_BIT;
    level(&mut draft, 3, 0);
    add_node(&mut draft, [2, 2, 1, 1], DUMMY, "");
    add_node(&mut draft, [0, 0, 2, 1], SIMPLE, "");
    draft.tables[NODES][1][6..].copy_from_slice(&[SELF_LOOP_BIT, 1, 2]);
    cases.painted("dummy and self-loop on a Double edge", &draft);
    let mut draft = sheet(6, 5);
    add_node(&mut draft, [0, 1, 5, 1], SIMPLE, "ABC");
    add_node(&mut draft, [1, 1, 2, 1], SIMPLE, "");
    draft.tables[NODES][1][6..].copy_from_slice(&[SELF_LOOP_BIT, 3, 1]);
    cases.painted("a self-loop on another node's text", &draft);
}

/// "Overwriting a wide lead empties its continuation; overwriting a continuation by
/// another cell turns its lead into a space."
fn wide_text(cases: &mut Cases) {
    for (name, x) in [
        ("its lead", 1),
        ("its continuation", 2),
        ("both", 0),
        ("the one after it", 3),
    ] {
        let mut draft = sheet(8, 1);
        add_node(&mut draft, [0, 0, 6, 1], SIMPLE, "\u{6F22}\u{6F22}");
        add_node(&mut draft, [x, 0, 2, 1], SIMPLE, "");
        cases.painted(format!("a wide character, {name} covered"), &draft);
    }
    for width in 3..=6 {
        let mut draft = sheet(width, 3);
        add_subgraph(&mut draft, [0, 0, 9, 3], 0, 7, "A\u{6F22}\u{301}\u{6F22}");
        cases.painted(format!("wide label on {width} columns"), &draft);
    }
    let mut draft = sheet(6, 3);
    add_subgraph(&mut draft, [0, 0, 8, 3], 0, 7, "\u{6F22}");
    add_subgraph(&mut draft, [0, 0, 8, 3], 0, 7, "\u{6F22}");
    add_subgraph(&mut draft, [1, 0, 8, 3], 0, 7, "\u{6F22}");
    cases.painted("the same wide character twice, then a column on", &draft);
}

/// Placed labels, nodes and subgraph labels on the same cells, each over the one
/// before.
fn labels_in_order(cases: &mut Cases) {
    let mut draft = sheet(8, 3);
    let [start, count] = draft.write("\u{6F22}BC");
    let mut record = edge_record([0, 1, 7, 1], DIRECT << 29 | X_FLOW_BIT | 2 << 23, [0; 3]);
    record[4] |= LABEL_PRESENT_BIT;
    record[8..].copy_from_slice(&[start, count, 5, 9]);
    draft.add(EDGES, &record);
    draft.add(PLACED_LABELS, &[0, 1, 1, 1 << 31]);
    cases.painted("placed label on its edge", &draft);
    add_node(&mut draft, [2, 1, 3, 1], SIMPLE, "D");
    cases.painted("the same, and a node over it", &draft);
    add_subgraph(&mut draft, [1, 0, 6, 3], 3 << 30, 7, "E");
    cases.painted("the same, and a subgraph's label", &draft);
    let [first, count] = draft.add_points([[7, 2], [0, 2]]);
    edge(
        &mut draft,
        ORTHOGONAL,
        [7, 0, 0, 0],
        [first, count, 0],
        3 << 23 | BOTH,
    );
    cases.painted("the same, and an Orthogonal edge around", &draft);
}
