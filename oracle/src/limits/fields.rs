//! Code 4: each field of each record at its limit and past it.

use super::{one_of_each, shown, Cases};
use crate::draft::{edge_record, Draft};
use crate::layout::{
    path_flags, BLANK, CODE_POINT_LIMIT, COORDINATE_LIMIT, CORNER, DIRECT, DUMMY, EDGES, ELEMENTS,
    GLYPHS, LABEL_PRESENT_BIT, MULTI_SEGMENT, NODES, ORTHOGONAL, PLACED_LABELS, POINTS,
    SELF_LOOP_BIT, SIDE_CHANNEL, SIMPLE, SPLINE, SUBGRAPHS, TABLE_NAMES, WIDTH_RANGES, X_FLOW_BIT,
};

pub fn add(cases: &mut Cases) {
    coordinates(cases);
    spans(cases);
    spans_of_empty_tables(cases);
    node_flags(cases);
    loops(cases);
    edge_flags(cases);
    unused_path_fields(cases);
    used_path_fields(cases);
    edge_labels(cases);
    subgraph_flags(cases);
    colours(cases);
    placed_labels(cases);
    element_kinds(cases);
    element_indexes(cases);
    element_rows(cases);
    glyphs(cases);
    width_ranges(cases);
}

/// One of each, and a second record in this table: a reader that walks the
/// records by a wrong stride cannot pass.
fn two_of(table: usize) -> Draft {
    let mut draft = one_of_each();
    match table {
        ELEMENTS => draft.list(EDGES, 0, 0, 0),
        WIDTH_RANGES => {
            draft.add(WIDTH_RANGES, &[0x400, 0x40F, 2]);
        }
        _ => {
            let again = draft.tables[table][0].clone();
            draft.add(table, &again);
        }
    }
    draft
}

/// A field of the last record of a table, to be given other values.
struct Spot<'a> {
    base: &'a Draft,
    table: usize,
    field: usize,
    what: String,
}

impl<'a> Spot<'a> {
    fn of(base: &'a Draft, table: usize, field: usize, what: impl Into<String>) -> Spot<'a> {
        Spot {
            base,
            table,
            field,
            what: what.into(),
        }
    }

    fn with(&self, value: u32) -> (String, Draft) {
        let mut draft = self.base.clone();
        let record = draft.tables[self.table].last_mut();
        record.expect("the base has such a record")[self.field] = value;
        (format!("{} {}", self.what, shown(value)), draft)
    }

    fn place(&self) -> u32 {
        let last = self.base.count(self.table) - 1;
        self.base.place(self.table, last, self.field)
    }

    fn good(&self, cases: &mut Cases, values: &[u32]) {
        for value in values {
            let (name, draft) = self.with(*value);
            cases.accepted(name, &draft);
        }
    }

    fn bad(&self, cases: &mut Cases, values: &[u32]) {
        for value in values {
            let (name, draft) = self.with(*value);
            cases.refused(name, &draft, 4, self.place());
        }
    }

    /// "Coordinates, extents, rows and offsets are at most 32,767."
    fn is_a_coordinate(&self, cases: &mut Cases) {
        self.good(cases, &[0, COORDINATE_LIMIT]);
        self.bad(cases, &OVER_A_COORDINATE);
    }

    /// A flags word: `spare` is how many bits from bit 0 up have no meaning.
    fn has_spare_bits(&self, cases: &mut Cases, spare: u32, legal: u32) {
        for bit in 0..spare {
            let (_, draft) = self.with(legal | 1 << bit);
            let name = format!("{}, spare bit {bit}", self.what);
            cases.refused(name, &draft, 4, self.place());
        }
        let (_, draft) = self.with(legal | ((1 << spare) - 1));
        let name = format!("{}, all spare bits", self.what);
        cases.refused(name, &draft, 4, self.place());
    }
}

/// One past, past in the upper bits alone, and the largest.
const OVER_A_COORDINATE: [u32; 4] = [COORDINATE_LIMIT + 1, 0x1_0000, 1 << 31, u32::MAX];

fn coordinates(cases: &mut Cases) {
    let box_fields = ["x", "y", "width", "height"];
    let ends = ["from x", "from y", "to x", "to y"];
    for (table, record_name, first_field, fields) in [
        (NODES, "node", 0, &box_fields[..]),
        (EDGES, "edge", 0, &ends),
        (SUBGRAPHS, "subgraph", 0, &box_fields),
        (PLACED_LABELS, "placed label", 1, &["x", "y"]),
        (POINTS, "point", 0, &["x", "y"]),
    ] {
        let base = two_of(table);
        for (field, name) in (first_field..).zip(fields) {
            let spot = Spot::of(&base, table, field, format!("{record_name} {name}"));
            spot.is_a_coordinate(cases);
        }
    }
}

// ---- Spans ---------------------------------------------------------------

/// A start and a count in the last record of a table: the start's field, the
/// table that they point into, and an image around them.
struct Span {
    what: &'static str,
    table: usize,
    field: usize,
    into: usize,
    base: Draft,
}

impl Span {
    fn with(&self, (start, count): (u32, u32)) -> (String, Draft) {
        let mut draft = self.base.clone();
        if let Some(record) = draft.tables[self.table].last_mut() {
            (record[self.field], record[self.field + 1]) = (start, count);
        }
        let name = format!(
            "{} {} + {} of {} {}",
            self.what,
            shown(start),
            shown(count),
            draft.count(self.into),
            TABLE_NAMES[self.into]
        );
        (name, draft)
    }

    /// "a span that leaves: its start"
    fn place(&self) -> u32 {
        let last = self.base.count(self.table) - 1;
        self.base.place(self.table, last, self.field)
    }
}

/// Every place where document 01 has a start and a count, in an image made of
/// `base` and the record around them.
fn spans_over(base: &Draft) -> Vec<Span> {
    let span = |what, table, field, into, record: &[u32]| {
        let mut base = base.clone();
        base.add(table, record);
        Span {
            what,
            table,
            field,
            into,
            base,
        }
    };
    let edge = |flags: u32| edge_record([1, 1, 1, 2], flags, [0; 3]);
    let labelled = edge(path_flags(DIRECT) | LABEL_PRESENT_BIT);
    let multi = edge(path_flags(MULTI_SEGMENT));
    let orthogonal = edge(path_flags(ORTHOGONAL) | X_FLOW_BIT);
    let node = [1, 1, 1, 1, 0, 0, BLANK << 30, 0, 0];
    let subgraph = [1, 1, 1, 1, 0, 0, 0, 0];
    vec![
        span("node label", NODES, 4, GLYPHS, &node),
        span("edge label", EDGES, 8, GLYPHS, &labelled),
        span("subgraph label", SUBGRAPHS, 4, GLYPHS, &subgraph),
        span("MultiSegment points", EDGES, 5, POINTS, &multi),
        span("Orthogonal points", EDGES, 5, POINTS, &orthogonal),
    ]
}

/// "start + count leaves its table", by the true sum: also one that comes out
/// small at 32 bits.
fn spans(cases: &mut Cases) {
    let mut base = one_of_each();
    for _ in 0..2 {
        base.add(POINTS, &[1, 1]);
        base.add(GLYPHS, &[0x42]);
    }
    for span in spans_over(&base) {
        for inside in [(0, 0), (0, 3), (1, 2), (2, 1), (3, 0)] {
            let (name, draft) = span.with(inside);
            cases.accepted(name, &draft);
        }
        for leaving in [
            (3, 1),
            (2, 2),
            (0, 4),
            (4, 0),
            (0x1_0000, 0),
            (u32::MAX, 0),
            (0, u32::MAX),
            (u32::MAX, 1),
            (1, u32::MAX),
            (u32::MAX, 2),
            (2, u32::MAX),
            (1 << 31, 1 << 31),
            (u32::MAX, u32::MAX),
        ] {
            let (name, draft) = span.with(leaving);
            cases.refused(name, &draft, 4, span.place());
        }
    }
}

fn spans_of_empty_tables(cases: &mut Cases) {
    for span in spans_over(&Draft::blank_sheet(4, 0)) {
        let (name, draft) = span.with((0, 0));
        cases.accepted(name, &draft);
        for leaving in [(0, 1), (1, 0), (u32::MAX, 1)] {
            let (name, draft) = span.with(leaving);
            cases.refused(name, &draft, 4, span.place());
        }
    }
}

// ---- Nodes ---------------------------------------------------------------

fn node_flags(cases: &mut Cases) {
    let base = &two_of(NODES);
    let spot = Spot::of(base, NODES, 6, "node flags");
    // Kind and self-loop, every combination.
    for flags in 0..8 {
        spot.good(cases, &[flags << 29]);
    }
    spot.has_spare_bits(cases, 29, BLANK << 30);
}

/// "loop x, loop y (both 0 without the bit)"
fn loops(cases: &mut Cases) {
    for kind in [SIMPLE, BLANK, DUMMY] {
        for (loop_bit, bit_name) in [(0, "without"), (SELF_LOOP_BIT, "with")] {
            let mut base = two_of(NODES);
            base.tables[NODES][1][6] = kind << 30 | loop_bit;
            for (field, axis) in [(7, "x"), (8, "y")] {
                let spot = Spot::of(
                    &base,
                    NODES,
                    field,
                    format!("node of kind {kind} {bit_name} the loop bit, loop {axis}"),
                );
                if loop_bit == 0 {
                    spot.good(cases, &[0]);
                    spot.bad(cases, &[1, COORDINATE_LIMIT, u32::MAX]);
                } else {
                    spot.is_a_coordinate(cases);
                }
            }
        }
    }
}

// ---- Edges ---------------------------------------------------------------

fn edge_flags(cases: &mut Cases) {
    let base = &two_of(EDGES);
    let spot = Spot::of(base, EDGES, 4, "edge flags");
    for path_and_axis in 0..16 {
        for weight in 0..4 {
            let flags = path_and_axis << 28 | weight << 23;
            let is_legal = path_and_axis >> 1 <= SPLINE && weight > 0;
            match is_legal {
                true => spot.good(cases, &[flags]),
                false => spot.bad(cases, &[flags]),
            }
        }
    }
    // Reversed, start marker, end marker, and the label bit with an empty label.
    for markers in 1..8 {
        spot.good(cases, &[path_flags(DIRECT) | markers << 25]);
    }
    spot.good(cases, &[path_flags(DIRECT) | LABEL_PRESENT_BIT]);
    spot.has_spare_bits(cases, 22, path_flags(DIRECT));
}

/// An image whose second edge has this path, on the axis told.
fn edge_of(path: u32, axis: u32) -> Draft {
    let mut base = two_of(EDGES);
    base.tables[EDGES][1][4] = path_flags(path) | axis;
    base
}

const AXES: [(u32, &str); 2] = [(0, "Y"), (X_FLOW_BIT, "X")];
const PATH_FIELDS: [(usize, &str); 3] = [(5, "a"), (6, "b"), (7, "c")];

/// "Unused a, b, c are 0."
fn unused_path_fields(cases: &mut Cases) {
    let unused: [(u32, &str, &[(usize, &str)]); 4] = [
        (DIRECT, "Direct", &PATH_FIELDS),
        (SPLINE, "Spline", &PATH_FIELDS),
        (CORNER, "Corner", &PATH_FIELDS[1..]),
        (ORTHOGONAL, "Orthogonal", &PATH_FIELDS[2..]),
    ];
    for (path, path_name, fields) in unused {
        for (axis, axis_name) in AXES {
            let base = &edge_of(path, axis);
            for (field, field_name) in fields {
                let spot = Spot::of(
                    base,
                    EDGES,
                    *field,
                    format!("{path_name} {axis_name}, unused {field_name}"),
                );
                spot.bad(cases, &[1, u32::MAX]);
            }
        }
    }
    // The flags stand first, so an unknown path is the fault whatever a is.
    let mut draft = edge_of(6, 0);
    draft.tables[EDGES][1][5] = u32::MAX;
    let place = draft.place(EDGES, 1, 4);
    cases.refused("path 6 with a of 0xFFFFFFFF", &draft, 4, place);
}

fn used_path_fields(cases: &mut Cases) {
    let used: [(u32, &str, &[(usize, &str)]); 3] = [
        (CORNER, "Corner", &PATH_FIELDS[..1]),
        (SIDE_CHANNEL, "SideChannel", &PATH_FIELDS),
        (MULTI_SEGMENT, "MultiSegment", &PATH_FIELDS[2..]),
    ];
    for (path, path_name, fields) in used {
        for (axis, axis_name) in AXES {
            let base = &edge_of(path, axis);
            for (field, field_name) in fields {
                let spot = Spot::of(
                    base,
                    EDGES,
                    *field,
                    format!("{path_name} {axis_name}, {field_name}"),
                );
                spot.is_a_coordinate(cases);
            }
        }
    }
}

/// "label present 1 (else start and count 0)"; what the bit allows is among
/// the spans.
fn edge_labels(cases: &mut Cases) {
    for (start, count, field) in [
        (1, 0, 8),
        (0, 1, 9),
        (1, 1, 8),
        (u32::MAX, 0, 8),
        (0, u32::MAX, 9),
        (u32::MAX, 1, 8),
    ] {
        let mut draft = two_of(EDGES);
        draft.tables[EDGES][1][8..10].copy_from_slice(&[start, count]);
        let name = format!(
            "edge without the label bit, label {} + {}",
            shown(start),
            shown(count)
        );
        cases.refused(name, &draft, 4, draft.place(EDGES, 1, field));
    }
}

// ---- Subgraphs, colours, placed labels -----------------------------------

fn subgraph_flags(cases: &mut Cases) {
    let base = &two_of(SUBGRAPHS);
    let spot = Spot::of(base, SUBGRAPHS, 6, "subgraph flags");
    // Border and label position, every combination.
    for flags in 0..8 {
        spot.good(cases, &[flags << 29]);
    }
    spot.has_spare_bits(cases, 29, 0);
}

/// "Colours are any u32."
fn colours(cases: &mut Cases) {
    for (table, field, what) in [
        (EDGES, 10, "edge colour"),
        (EDGES, 11, "edge label colour"),
        (SUBGRAPHS, 7, "subgraph colour"),
    ] {
        let base = &two_of(table);
        let spot = Spot::of(base, table, field, what);
        spot.good(cases, &[0, COORDINATE_LIMIT + 1, 1 << 31, u32::MAX]);
    }
}

fn placed_labels(cases: &mut Cases) {
    let mut base = two_of(PLACED_LABELS);
    let flags = Spot::of(&base, PLACED_LABELS, 3, "placed label flags");
    for placeable_and_row in 0..4 {
        flags.good(cases, &[placeable_and_row << 30]);
    }
    flags.has_spare_bits(cases, 30, 0);
    let again = base.tables[EDGES][0].clone();
    base.add(EDGES, &again);
    let edge = Spot::of(&base, PLACED_LABELS, 0, "placed label of 2 edges, edge");
    edge.good(cases, &[0, 1]);
    edge.bad(cases, &[2, 0x1_0000, 1 << 31, u32::MAX]);
    let mut alone = Draft::blank_sheet(4, 0);
    alone.add(PLACED_LABELS, &[0; 4]);
    Spot::of(&alone, PLACED_LABELS, 0, "placed label of no edges, edge").bad(cases, &[0, u32::MAX]);
}

// ---- Elements ------------------------------------------------------------

fn element_kinds(cases: &mut Cases) {
    let mut base = one_of_each();
    base.tables[ELEMENTS].clear();
    base.list(NODES, 0, 0, 0);
    let mut spot = Spot::of(&base, ELEMENTS, 0, "element kind");
    spot.good(cases, &[0, 1, 2]);
    spot.bad(cases, &[3, 4, 0x100, 0x1_0000, 1 << 31, u32::MAX]);
    // The kind stands first, so it is the fault whatever the index is.
    let mut lost = base.clone();
    lost.tables[ELEMENTS][0] = vec![0, u32::MAX, u32::MAX, u32::MAX];
    spot.base = &lost;
    spot.what = "element with all after it at fault, kind".into();
    spot.bad(cases, &[3]);
}

/// As many things of each kind as its number and one: an index that is right
/// for another kind is not right for this one.
fn element_indexes(cases: &mut Cases) {
    let mut base = one_of_each();
    for (kind, more) in [(EDGES, 1), (SUBGRAPHS, 2)] {
        for _ in 0..more {
            let again = base.tables[kind][0].clone();
            base.add(kind, &again);
        }
    }
    for (kind, name) in [(NODES, "node"), (EDGES, "edge"), (SUBGRAPHS, "subgraph")] {
        base.tables[ELEMENTS] = vec![vec![kind as u32, 0, 0, 0]];
        let count = base.count(kind);
        let spot = Spot::of(
            &base,
            ELEMENTS,
            1,
            format!("element of {count} {}, index", TABLE_NAMES[kind]),
        );
        spot.good(cases, &[0]);
        if count > 1 {
            spot.good(cases, &[count - 1]);
        }
        spot.bad(cases, &[count, 0x1_0000, 1 << 31, u32::MAX]);
        let mut alone = Draft::blank_sheet(4, 0);
        alone.list(kind, 0, 0, 0);
        let name = format!("element that lists {name} 0 of none");
        cases.refused(name, &alone, 4, alone.place(ELEMENTS, 0, 1));
    }
}

fn element_rows(cases: &mut Cases) {
    let mut base = two_of(ELEMENTS);
    Spot::of(&base, ELEMENTS, 3, "element from row 0, last row").is_a_coordinate(cases);
    // Code 4 comes before code 8, so the last row may stay 0 here.
    Spot::of(&base, ELEMENTS, 2, "element to row 0, first row").bad(cases, &OVER_A_COORDINATE);
    base.tables[ELEMENTS][1][3] = COORDINATE_LIMIT;
    Spot::of(&base, ELEMENTS, 2, "element to row 32767, first row").is_a_coordinate(cases);
}

// ---- Glyphs and width ranges ---------------------------------------------

/// "Glyph, 1: a Unicode scalar value."
fn glyphs(cases: &mut Cases) {
    let base = &two_of(GLYPHS);
    let spot = Spot::of(base, GLYPHS, 0, "");
    // A control character is a scalar value, so it is left to code 13.
    let (_, draft) = spot.with(0);
    cases.refused("glyph 0000", &draft, 13, spot.place());
    let scalar_values = [0x20, 0xD7FF, 0xE000, 0xFFFF, 0x1_0000, CODE_POINT_LIMIT];
    for value in scalar_values {
        let (_, draft) = spot.with(value);
        cases.accepted(format!("glyph {value:04X}"), &draft);
    }
    for value in [
        0xD800,
        0xDBFF,
        0xDC00,
        0xDFFF,
        CODE_POINT_LIMIT + 1,
        // A letter under a bit that no code point has.
        0x20_0041,
        0x8000_0041,
        u32::MAX,
    ] {
        let (_, draft) = spot.with(value);
        cases.refused(format!("glyph {value:04X}"), &draft, 4, spot.place());
    }
}

/// "Width range, 3: first, last (each to 10FFFF), width 0 or 2"
fn width_ranges(cases: &mut Cases) {
    let mut base = two_of(WIDTH_RANGES);
    let over = [CODE_POINT_LIMIT + 1, 1 << 31, u32::MAX];
    Spot::of(&base, WIDTH_RANGES, 0, "range to 40F, first").good(cases, &[0x400, 0x40F]);
    // Code 4 comes before code 5, so first may lie above last here.
    Spot::of(&base, WIDTH_RANGES, 0, "range to 40F, first").bad(cases, &over);
    let last = Spot::of(&base, WIDTH_RANGES, 1, "range from 400, last");
    last.good(cases, &[0x400, CODE_POINT_LIMIT]);
    last.bad(cases, &over);
    let width = Spot::of(&base, WIDTH_RANGES, 2, "range width");
    width.good(cases, &[0, 2]);
    width.bad(cases, &[1, 3, 4, 0x1_0000, 0x8000_0002, u32::MAX]);
    // Surrogates are no glyphs, but a range may hold them.
    base.tables[WIDTH_RANGES][1] = vec![0xD800, 0xDFFF, 0];
    cases.accepted("range of the surrogates", &base);
    base.tables[WIDTH_RANGES][1] = vec![CODE_POINT_LIMIT, CODE_POINT_LIMIT, 2];
    cases.accepted("range of 10FFFF alone", &base);
}
