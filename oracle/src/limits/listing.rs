//! Codes 7 and 8, and of code 9 which thing is named.

use super::Cases;
use crate::draft::{edge_record, Draft};
use crate::layout::{
    path_flags, BLANK, COORDINATE_LIMIT, DIRECT, EDGES, ELEMENTS, NODES, SIMPLE, SUBGRAPHS,
    TABLE_NAMES,
};

pub fn add(cases: &mut Cases) {
    listed_twice(cases);
    listed_once(cases);
    first_and_last(cases);
    rows_in_order(cases);
    rows_out_of_order(cases);
    which_thing(cases);
    whose_listing(cases);
}

/// Two things of each kind, none of which touches a row, and the elements.
fn listing(elements: &[[u32; 4]]) -> Draft {
    let mut draft = Draft::blank_sheet(4, 6);
    for _ in 0..2 {
        draft.add(NODES, &[0, 0, 0, 0, 0, 0, BLANK << 30, 0, 0]);
        draft.add(EDGES, &edge_record([0; 4], path_flags(DIRECT), [0; 3]));
        draft.add(SUBGRAPHS, &[0; 8]);
    }
    for element in elements {
        draft.add(ELEMENTS, element);
    }
    draft
}

/// "an element names one already listed": the later one is at fault.
fn listed_twice(cases: &mut Cases) {
    for kind in [NODES, EDGES, SUBGRAPHS] {
        for index in [0, 1] {
            let mut bad = |name: &str, elements: &[[u32; 4]], at: u32| {
                let name = format!("{} {index} listed twice, {name}", TABLE_NAMES[kind]);
                let draft = listing(elements);
                cases.refused(name, &draft, 7, draft.place(ELEMENTS, at, 0));
            };
            let this = [kind as u32, index, 1, 1];
            let other = [kind as u32, 1 - index, 1, 1];
            let another = [(kind as u32 + 1) % 3, index, 1, 1];
            bad("at once", &[this, this], 1);
            bad("with other rows", &[this, [this[0], index, 2, 5]], 1);
            bad("two elements between", &[this, other, another, this], 3);
            bad("three times", &[this, this, this], 1);
            bad("then another thing twice", &[this, other, this, other], 2);
        }
    }
}

fn listed_once(cases: &mut Cases) {
    let mut all = Vec::new();
    for kind in 0..3 {
        all.extend([[kind, 1, 2, 2], [kind, 0, 2, 2]]);
    }
    cases.accepted("every thing listed once", &listing(&all));
    all.reverse();
    cases.accepted("every thing listed once, backward", &listing(&all));
    cases.accepted("no thing listed", &listing(&[]));
}

fn rows_of(elements: &[(u32, u32)]) -> Draft {
    // Each element is a thing of its own: there are six to be listed.
    let numbered = (0..).zip(elements);
    let elements: Vec<[u32; 4]> = numbered
        .map(|(nth, (first, last))| [nth % 3, nth / 3, *first, *last])
        .collect();
    listing(&elements)
}

fn good_rows(cases: &mut Cases, rows: &[(u32, u32)]) {
    cases.accepted(format!("elements of rows {rows:?}"), &rows_of(rows));
}

fn bad_rows(cases: &mut Cases, rows: &[(u32, u32)], at: u32) {
    let draft = rows_of(rows);
    let place = draft.place(ELEMENTS, at, 0);
    cases.refused(format!("elements of rows {rows:?}"), &draft, 8, place);
}

/// "first row > last row"
fn first_and_last(cases: &mut Cases) {
    let far = COORDINATE_LIMIT;
    for rows in [(0, 0), (5, 5), (0, far), (far, far), (6, 7)] {
        good_rows(cases, &[rows]);
    }
    for rows in [(1, 0), (far, far - 1), (far, 0), (6, 5)] {
        bad_rows(cases, &[rows], 0);
    }
    bad_rows(cases, &[(0, 0), (3, 2)], 1);
    bad_rows(cases, &[(0, 0), (1, 1), (2, 1)], 2);
}

fn rows_in_order(cases: &mut Cases) {
    good_rows(cases, &[(1, 1), (1, 1), (1, 1)]);
    good_rows(cases, &[(0, 5), (1, 2), (2, 2)]);
    good_rows(cases, &[(0, 1), (0, 0), (5, 5)]);
    good_rows(cases, &[(2, 2), (2, 9), (2, 2), (3, 3)]);
    good_rows(cases, &[(0, 32_767), (32_767, 32_767)]);
}

/// "first row below the previous element's"
fn rows_out_of_order(cases: &mut Cases) {
    bad_rows(cases, &[(1, 1), (0, 0)], 1);
    bad_rows(cases, &[(1, 1), (0, 9)], 1);
    bad_rows(cases, &[(0, 0), (2, 2), (1, 1)], 2);
    // Above the first of all is not enough.
    bad_rows(cases, &[(0, 0), (3, 3), (3, 3), (2, 5)], 3);
    bad_rows(cases, &[(32_767, 32_767), (32_766, 32_767)], 1);
    // "its first word": of the first element at fault.
    bad_rows(cases, &[(2, 1), (1, 0)], 0);
    bad_rows(cases, &[(2, 2), (1, 1), (0, 0)], 1);
    bad_rows(cases, &[(5, 5), (4, 4), (5, 4)], 1);
}

/// A node, an edge and a subgraph that touch row 3, two of each.
fn touching() -> Draft {
    let mut draft = Draft::blank_sheet(4, 6);
    for _ in 0..2 {
        draft.add(NODES, &[0, 3, 1, 1, 0, 0, SIMPLE << 30, 0, 0]);
        let flags = path_flags(DIRECT);
        draft.add(EDGES, &edge_record([0, 2, 0, 4], flags, [0; 3]));
        draft.add(SUBGRAPHS, &[0, 3, 2, 2, 0, 0, 1 << 30, 0]);
    }
    draft
}

const ALL_SIX: [(usize, u32); 6] = [
    (NODES, 0),
    (NODES, 1),
    (EDGES, 0),
    (EDGES, 1),
    (SUBGRAPHS, 0),
    (SUBGRAPHS, 1),
];

/// "its first word; nodes, edges, subgraphs in turn"
fn which_thing(cases: &mut Cases) {
    for (nth, (kind, index)) in ALL_SIX.into_iter().enumerate() {
        let name = format!("of six things {} {index}", TABLE_NAMES[kind]);
        let mut without_this = touching();
        let mut up_to_this = touching();
        for (other, (kind, index)) in ALL_SIX.into_iter().enumerate() {
            if other != nth {
                without_this.list(kind, index, 3, 4);
            }
            if other < nth {
                up_to_this.list(kind, index, 3, 4);
            }
        }
        let place = without_this.place(kind, index, 0);
        cases.refused(format!("{name} alone unlisted"), &without_this, 9, place);
        let name = format!("{name} and all after it unlisted");
        cases.refused(name, &up_to_this, 9, place);
    }
    let mut listed = touching();
    for (kind, index) in ALL_SIX.into_iter().rev() {
        listed.list(kind, index, 3, 4);
    }
    cases.accepted("six things listed, the last first", &listed);
}

/// A listing counts for the thing that it names alone.
fn whose_listing(cases: &mut Cases) {
    for (kind, index) in ALL_SIX {
        let mut draft = touching();
        for (other_kind, other_index) in ALL_SIX {
            // The one short listing stands where all the others are complete.
            let is_short = (other_kind, other_index) == (kind, index);
            let last_row = if is_short { 2 } else { 5 };
            draft.list(other_kind, other_index, 0, last_row);
        }
        let place = draft.place(kind, index, 0);
        let name = format!("of six things {} {index} alone short", TABLE_NAMES[kind]);
        cases.refused(name, &draft, 9, place);
    }
}
