//! Images with every table at its limit, 81,932 words each: too long to be
//! stored, so `compare-check` makes them anew.

use crate::codes::{Meant, Target};
use crate::draft::{edge_record, Draft};
use crate::layout::{
    path_flags, COORDINATE_LIMIT, EDGES, ELEMENTS, FIRST_COUNT_WORD, GLYPHS, HEADER_LIMITS,
    MULTI_SEGMENT, NODES, PLACED_LABELS, POINTS, RUN_CAPACITY_WORD, SIMPLE, SUBGRAPHS, TABLES,
    WIDTH_RANGES,
};

/// One that is accepted, and others in which the length, the last record of a
/// table, a glyph or the run capacity is at fault; each with what it must get.
pub fn full_images() -> Vec<Target> {
    let full = full_draft();
    let words = full.to_words();
    let mut images = vec![
        (Meant::code(0), words.clone()),
        (Meant::code(3), words[..words.len() - 1].to_vec()),
        (Meant::code(3), [&words[..], &[0]].concat()),
    ];
    for (code, fault) in LAST_RECORD_FAULTS {
        images.push((Meant::code(code), with_faults(&full, &[fault])));
    }
    images.extend(images_with_controls(&full));
    let mut too_few_runs = full;
    too_few_runs.head[RUN_CAPACITY_WORD] -= 1;
    images.push((Meant::code(10), too_few_runs.to_words()));
    images
}

/// A table, a field of its last record, and the value that is put there.
type Fault = (usize, usize, u32);

const BAD_RANGE: Fault = (WIDTH_RANGES, 0, last_of_range(1_022));
const CORNER_BELOW_0: Fault = (EDGES, 7, 2);
const DOUBLED_ELEMENT: Fault = (ELEMENTS, 1, 0);
const CONTROL: Fault = (GLYPHS, 0, 0x9F);

/// Each with its code.
const LAST_RECORD_FAULTS: [(u32, Fault); 17] = [
    (4, (NODES, 8, 1)),
    (4, (EDGES, 9, 1)),
    (4, (SUBGRAPHS, 6, 1)),
    (4, (PLACED_LABELS, 0, 1_024)),
    (4, (ELEMENTS, 3, COORDINATE_LIMIT + 1)),
    (4, (POINTS, 1, COORDINATE_LIMIT + 1)),
    (4, (GLYPHS, 0, 0xD800)),
    (4, (WIDTH_RANGES, 2, 1)),
    (5, BAD_RANGE),
    (13, CONTROL),
    (6, CORNER_BELOW_0),
    (7, DOUBLED_ELEMENT),
    (8, (ELEMENTS, 2, 1_022)),
    (9, (NODES, 1, 1_024)),
    (9, (EDGES, 3, 300)),
    (9, (SUBGRAPHS, 3, 3)),
    (9, (ELEMENTS, 3, 1_023)),
];

fn with_faults(full: &Draft, faults: &[Fault]) -> Vec<u32> {
    let mut draft = full.clone();
    for (table, field, value) in faults {
        if let Some(last) = draft.tables[*table].last_mut() {
            last[*field] = *value;
        }
    }
    draft.to_words()
}

/// The first glyph or one in the middle, which no label uses, or all; and the last one
/// beside other faults.
fn images_with_controls(full: &Draft) -> Vec<Target> {
    let glyphs = full.count(GLYPHS);
    let mut images = Vec::new();
    for (first, after) in [(0, 1), (glyphs / 2, glyphs / 2 + 1), (0, glyphs)] {
        let mut draft = full.clone();
        draft.tables[GLYPHS][first as usize..after as usize].fill(vec![0x1F]);
        images.push((
            Meant::at(13, full.place(GLYPHS, first, 0)),
            draft.to_words(),
        ));
    }
    let last = full.place(GLYPHS, glyphs - 1, 0);
    for later in [CORNER_BELOW_0, DOUBLED_ELEMENT] {
        let words = with_faults(full, &[CONTROL, later]);
        images.push((Meant::at(13, last), words));
    }
    let bad_range = full.place(WIDTH_RANGES, full.count(WIDTH_RANGES) - 1, 0);
    let words = with_faults(full, &[CONTROL, BAD_RANGE]);
    images.push((Meant::at(5, bad_range), words));
    images
}

/// The one that is accepted.
pub fn full_draft() -> Draft {
    let mut draft = Draft::blank_sheet(HEADER_LIMITS[0], 1_100);
    draft.head[RUN_CAPACITY_WORD] = HEADER_LIMITS[RUN_CAPACITY_WORD];
    for table in 0..TABLES {
        for nth in 0..HEADER_LIMITS[FIRST_COUNT_WORD + table] {
            draft.add(table, &nth_record(table, nth));
        }
    }
    draft
}

fn nth_record(table: usize, nth: u32) -> Vec<u32> {
    let last_glyph = HEADER_LIMITS[FIRST_COUNT_WORD + GLYPHS] - 1;
    match table {
        NODES => vec![nth, nth, 3, 1, last_glyph, 1, SIMPLE << 30, 0, 0],
        EDGES => nth_edge(nth),
        SUBGRAPHS => vec![nth, nth, 2, 2, last_glyph, 1, 1 << 30, 7],
        PLACED_LABELS => vec![nth, nth, nth, 1 << 31],
        ELEMENTS => nth_element(nth),
        POINTS => vec![point_column(nth), 1 + nth % 100],
        GLYPHS => vec![0x41],
        _ => vec![last_of_range(nth), last_of_range(nth), nth % 2 * 2],
    }
}

/// Columns 0 and 2 in turn, so that every leg has a run.
fn point_column(nth: u32) -> u32 {
    nth % 2 * 2
}

/// Sixteen legs upward: 1,024 edges have just as many runs as the greatest
/// capacity holds.
fn nth_edge(nth: u32) -> Vec<u32> {
    let points = 15;
    let last_start = HEADER_LIMITS[FIRST_COUNT_WORD + POINTS] - points;
    let start = (8 * nth).min(last_start);
    let column = 2 - point_column(start);
    let flags = path_flags(MULTI_SEGMENT);
    edge_record([column, 1, column, 0], flags, [start, points, 0])
}

/// Edges first, then a node and a subgraph in turn, row by row.
fn nth_element(nth: u32) -> Vec<u32> {
    let Some(after_the_edges) = nth.checked_sub(1_024) else {
        return vec![EDGES as u32, nth, 0, 200];
    };
    let row = after_the_edges / 2;
    match after_the_edges % 2 {
        0 => vec![NODES as u32, row, row, row],
        _ => vec![SUBGRAPHS as u32, row, row, row + 1],
    }
}

const fn last_of_range(nth: u32) -> u32 {
    0x100 + 2 * nth
}
