//! Bands of one sheet: first, middle, last, of no rows; plain and coloured; buffers
//! with just the room; and the short form.

use super::things::{add_node, add_subgraph, sheet};
use super::{band, subject_of, whole, Cases};
use crate::draft::{edge_record, Draft};
use crate::layout::{
    path_flags, BLANK, BOXED, CORNER, DIRECT, DUMMY, EDGES, END_MARKER_BIT, HEADER_FLAGS_WORD,
    INSIDE_BOTTOM_BIT, LABEL_PRESENT_BIT, MULTI_SEGMENT, NODES, ORTHOGONAL, PLACED_LABELS,
    REVERSED_BIT, SELF_LOOP_BIT, SHOW_DUMMIES_BIT, SIDE_CHANNEL, SIMPLE, SPLINE, START_MARKER_BIT,
    X_FLOW_BIT,
};
use crate::requests::Request;
use std::rc::Rc;

pub fn add(cases: &mut Cases) {
    of_one_sheet(cases);
    of_everything(cases);
    with_just_the_room(cases);
    no_cells(cases);
    in_the_short_form(cases);
}

/// A little of everything on ten columns and nine rows.
pub fn medley() -> Draft {
    let mut draft = sheet(10, 9);
    add_subgraph(&mut draft, [0, 0, 10, 9], 2 << 30, 3, "Unit\u{6F22}");
    add_node(&mut draft, [1, 2, 5, 3], BOXED, "A");
    add_node(&mut draft, [5, 7, 4, 1], SIMPLE, "B\u{301}C");
    let flags = path_flags(CORNER) | START_MARKER_BIT | END_MARKER_BIT | LABEL_PRESENT_BIT;
    let mut record = edge_record([3, 4, 7, 7], flags, [5, 0, 0]);
    record[8..10].copy_from_slice(&draft.write("x"));
    record[10..].copy_from_slice(&[4, 5]);
    draft.add(EDGES, &record);
    let flags = path_flags(SIDE_CHANNEL) | END_MARKER_BIT;
    draft.add(EDGES, &edge_record([8, 1, 8, 7], flags, [2, 5, 6]));
    let [first, count] = draft.add_points([[6, 4]]);
    let flags = path_flags(MULTI_SEGMENT) | 1 << 23;
    draft.add(EDGES, &edge_record([9, 1, 1, 8], flags, [first, count, 1]));
    draft.add(PLACED_LABELS, &[0, 4, 6, 1 << 31]);
    draft
}

fn of_one_sheet(cases: &mut Cases) {
    let subject = subject_of(&medley());
    let bands = [
        ("all rows", (0, 9)),
        ("the first row", (0, 1)),
        ("the last row", (8, 1)),
        ("no row at the top", (0, 0)),
        ("no row in the middle", (5, 0)),
        ("no row below the last", (9, 0)),
        ("the first three rows", (0, 3)),
        ("three rows in the middle", (3, 3)),
        ("the last three rows", (6, 3)),
        ("the first eight rows", (0, 8)),
        ("the row with the runs", (5, 1)),
    ];
    for (name, rows) in bands {
        for (kind, coloured) in [("plain", false), ("coloured", true)] {
            let request = band(Rc::clone(&subject), coloured, rows);
            cases.ask(format!("of nine rows {name}, {kind}"), request, (0, 0));
        }
    }
}

/// Every path, weight, look and border on a sheet of eighteen columns and fourteen rows,
/// all edges along one flow.
pub fn everything(on_x_flow: bool, policy_and_dummies: u32) -> Draft {
    let mut draft = sheet(18, 14);
    draft.head[HEADER_FLAGS_WORD] = policy_and_dummies;
    for (border, position) in [
        (0, 0),
        (1, INSIDE_BOTTOM_BIT),
        (2, 0),
        (3, INSIDE_BOTTOM_BIT),
    ] {
        let frame = [border, border, 18 - 2 * border, 14 - 2 * border];
        let flags = border << 30 | position;
        add_subgraph(&mut draft, frame, flags, 0x50 + border, "Hall\u{6F22}");
    }
    for (nth, kind) in (0..).zip([SIMPLE, BOXED, BLANK, DUMMY]) {
        add_node(
            &mut draft,
            [1 + 4 * nth, 2 + 3 * nth, 5, 3],
            kind,
            "e\u{301}\u{5B57}x",
        );
        let node = &mut draft.tables[NODES][nth as usize];
        node[6..].copy_from_slice(&[kind << 30 | SELF_LOOP_BIT, 6 + 2 * nth, 1 + 3 * nth]);
    }
    let turned = |[x, y]: [u32; 2]| if on_x_flow { [y, x] } else { [x, y] };
    let [first, count] = draft.add_points([[4, 5], [9, 5]].map(turned));
    let flow = if on_x_flow { X_FLOW_BIT } else { 0 };
    let ways = [
        (DIRECT, [2, 0, 2, 12], [0; 3]),
        (CORNER, [1, 1, 11, 11], [5, 0, 0]),
        (SIDE_CHANNEL, [3, 12, 8, 2], [12, 10, 4]),
        (MULTI_SEGMENT, [6, 1, 10, 12], [first, count, 1]),
        (ORTHOGONAL, [4, 0, 9, 13], [first, count, 0]),
        (SPLINE, [7, 13, 7, 1], [0; 3]),
    ];
    let markers = [START_MARKER_BIT, END_MARKER_BIT, REVERSED_BIT];
    for (nth, (path, [x, y, to_x, to_y], abc)) in (0..).zip(ways) {
        let [from, to] = [turned([x, y]), turned([to_x, to_y])];
        let marker = markers[nth as usize % 3] | END_MARKER_BIT;
        let flags = path << 29 | flow | marker | (1 + nth % 3) << 23 | LABEL_PRESENT_BIT;
        let mut record = edge_record([from[0], from[1], to[0], to[1]], flags, abc);
        record[8..10].copy_from_slice(&draft.write("oil"));
        record[10..].copy_from_slice(&[0x100 + nth, 0x200 + nth]);
        draft.add(EDGES, &record);
        // Each of the four choices of flags, two of them twice.
        draft.add(
            PLACED_LABELS,
            &[nth, 1 + 2 * nth, 1 + 2 * nth, (3 + nth) % 4 << 30],
        );
    }
    draft
}

/// In bands of 1, 3 and 8 rows and whole, plain and coloured.
fn of_everything(cases: &mut Cases) {
    let flags = 1 << 31 | SHOW_DUMMIES_BIT;
    for (flow, draft) in [("Y", everything(false, 0)), ("X", everything(true, flags))] {
        let subject = subject_of(&draft);
        for rows in [1, 3, 8, 14] {
            for first in (0..14).step_by(rows) {
                let rows = rows.min(14 - first);
                for (kind, coloured) in [("plain", false), ("coloured", true)] {
                    let request = band(Rc::clone(&subject), coloured, (first, rows));
                    let name = format!("everything along {flow}, {rows} rows from {first}, {kind}");
                    cases.ask(name, request, (0, 0));
                }
            }
        }
    }
}

/// "all beyond is unchanged": nothing beyond, and much.
fn with_just_the_room(cases: &mut Cases) {
    let subject = subject_of(&medley());
    for (more, name) in [(0, "no word"), (5, "five words"), (40, "forty words")] {
        for (kind, coloured) in [("plain", false), ("coloured", true)] {
            let lent = subject.room(2).map(|wanted| wanted + more);
            let request = Request {
                lent,
                ..band(Rc::clone(&subject), coloured, (4, 2))
            };
            cases.ask(format!("{name} beyond the room, {kind}"), request, (0, 0));
        }
    }
}

/// Sheets without columns or rows, and a band for which nothing is lent.
fn no_cells(cases: &mut Cases) {
    for (width, height) in [(0, 0), (0, 3), (3, 0)] {
        let subject = subject_of(&sheet(width, height));
        for (kind, coloured) in [("plain", false), ("coloured", true)] {
            let request = Request {
                lent: [0; 4],
                ..whole(Rc::clone(&subject), coloured)
            };
            let name = format!("sheet {width} by {height}, nothing lent, {kind}");
            cases.ask(name, request, (0, 0));
        }
    }
}

fn in_the_short_form(cases: &mut Cases) {
    let mut wide = sheet(1_024, 3);
    add_subgraph(&mut wide, [1, 0, 1_022, 3], 1 << 30, 3, "The whole width");
    for (name, draft) in [("nine rows", medley()), ("1,024 columns", wide)] {
        let subject = subject_of(&draft);
        for (kind, coloured) in [("plain", false), ("coloured", true)] {
            let request = whole(Rc::clone(&subject), coloured);
            cases.ask_short(format!("{name} in the short form, {kind}"), request);
        }
    }
}
