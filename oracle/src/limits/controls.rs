//! Code 13, of request #105: "Values 0000 to 001F and 007F to 009F are no longer
//! glyphs." The place is "the first such glyph word".

use super::Cases;
use crate::draft::{edge_record, Draft};
use crate::layout::{
    path_flags, CODE_POINT_LIMIT, CORNER, DIRECT, EDGES, ELEMENTS, GLYPHS, LABEL_PRESENT_BIT,
    MULTI_SEGMENT, NODES, PLACED_LABELS, RUN_CAPACITY_WORD, SIMPLE, SUBGRAPHS, WIDTH_RANGES,
};

pub fn add(cases: &mut Cases) {
    every_value(cases);
    in_each_label(cases);
    alike_in_their_low_bits(cases);
    several(cases);
    ranges_that_hold_them(cases);
    with_a_wrong_length(cases);
    with_a_glyph_that_is_none(cases);
    with_a_bad_range(cases);
    with_a_later_fault(cases);
}

/// The first and the last of both ranges, and those beside them.
const CONTROLS: [u32; 8] = [0x00, 0x01, 0x1E, 0x1F, 0x7F, 0x80, 0x9E, 0x9F];

/// Just outside of the two ranges.
const NEIGHBOURS: [u32; 4] = [0x20, 0x7E, 0xA0, 0xA1];

/// A sheet on which nothing stands, and these glyphs, which no label uses.
fn glyphs_alone(glyphs: &[u32]) -> Draft {
    let mut draft = Draft::blank_sheet(4, 1);
    for glyph in glyphs {
        draft.add(GLYPHS, &[*glyph]);
    }
    draft
}

fn every_value(cases: &mut Cases) {
    for value in 0..=0xA1 {
        let name = format!("{value:04X} as the only glyph");
        let draft = glyphs_alone(&[value]);
        match value {
            0x20..=0x7E | 0xA0 | 0xA1 => cases.accepted(name, &draft),
            _ => cases.refused(name, &draft, 13, 12),
        }
    }
}

// ---- In labels -------------------------------------------------------------

/// What can have a label.
const OWNERS: [(usize, &str); 3] = [(NODES, "node"), (EDGES, "edge"), (SUBGRAPHS, "subgraph")];

/// Where a glyph stands in the table of `labelled`.
const UNUSED_BEFORE: u32 = 0;
const FIRST: u32 = 1;
const LAST: u32 = 3;
const UNUSED_AFTER: u32 = 4;

/// One thing of this kind, listed for the row that it touches, with the label ABC; a
/// glyph before these and one after them are in no label.
fn labelled(kind: usize) -> Draft {
    let mut draft = Draft::blank_sheet(8, 3);
    match kind {
        NODES => draft.add(NODES, &[0, 1, 8, 1, FIRST, 3, SIMPLE << 30, 0, 0]),
        EDGES => {
            let flags = path_flags(DIRECT) | LABEL_PRESENT_BIT;
            let mut edge = edge_record([0, 0, 0, 2], flags, [0; 3]);
            edge[8..10].copy_from_slice(&[FIRST, 3]);
            draft.add(PLACED_LABELS, &[0, 1, 1, 1 << 31]);
            draft.add(EDGES, &edge)
        }
        _ => draft.add(SUBGRAPHS, &[0, 0, 8, 3, FIRST, 3, 0, 0]),
    };
    draft.list(kind, 0, 1, 1);
    for glyph in "XABCY".chars() {
        draft.add(GLYPHS, &[glyph as u32]);
    }
    draft
}

fn set_glyph(draft: &mut Draft, nth: u32, value: u32) {
    draft.tables[GLYPHS][nth as usize] = vec![value];
}

fn in_each_label(cases: &mut Cases) {
    for (kind, owner) in OWNERS {
        for (nth, which) in [
            (UNUSED_BEFORE, "an unused glyph before it"),
            (FIRST, "its first glyph"),
            (LAST, "its last glyph"),
            (UNUSED_AFTER, "an unused glyph after it"),
        ] {
            for value in [&CONTROLS[..], &NEIGHBOURS].concat() {
                let mut draft = labelled(kind);
                set_glyph(&mut draft, nth, value);
                let name = format!("label of the {owner}, {which} {value:04X}");
                match NEIGHBOURS.contains(&value) {
                    true => cases.accepted(name, &draft),
                    false => cases.refused(name, &draft, 13, draft.place(GLYPHS, nth, 0)),
                }
            }
        }
    }
}

/// A glyph is looked at as a whole, not by its last byte or half.
fn alike_in_their_low_bits(cases: &mut Cases) {
    for value in [
        0x0100, 0x011B, 0x017F, 0x019F, 0x0A00, 0x1B00, 0xE01B, 0x1_0000, 0x1_001B, 0x1_007F,
        0x10_0000, 0x10_009F,
    ] {
        let name = format!("{value:04X} beside a letter");
        cases.accepted(name, &glyphs_alone(&[0x41, value]));
    }
    for value in [0x20_0000, 0x20_001B, 0x8000_0000, 0x8000_007F, 0xFFFF_FF9F] {
        let draft = glyphs_alone(&[0x41, value]);
        cases.refused(format!("{value:04X} beside a letter"), &draft, 4, 13);
    }
}

/// "the first such glyph word", whichever value is the lower.
fn several(cases: &mut Cases) {
    let tables: [(&[u32], u32); 7] = [
        (&[0x1B, 0x9F], 0),
        (&[0x9F, 0x1B], 0),
        (&[0x00, 0x00, 0x00], 0),
        (&[0x41, 0x7F, 0x00], 1),
        (&[0x41, 0x00, 0x42, 0x7F], 1),
        (&[0x20, 0x7E, 0xA0, 0x80, 0x1F], 3),
        (&[0x20, 0x7E, 0xA0, 0x6F22, 0x0A], 4),
    ];
    for (glyphs, first) in tables {
        let name = format!("glyphs {glyphs:04X?}");
        let draft = glyphs_alone(glyphs);
        cases.refused(name, &draft, 13, draft.place(GLYPHS, first, 0));
    }
    for (kind, owner) in OWNERS {
        let mut draft = labelled(kind);
        set_glyph(&mut draft, LAST, 0x00);
        set_glyph(&mut draft, UNUSED_AFTER, 0x7F);
        let name = format!("label of the {owner}, its last glyph 0000, and 007F after it");
        cases.refused(name, &draft, 13, draft.place(GLYPHS, LAST, 0));
    }
}

// ---- With ranges and other faults ------------------------------------------

/// A range may hold them, and no width that it gives lets a glyph pass.
fn ranges_that_hold_them(cases: &mut Cases) {
    for width in [0, 2] {
        let mut draft = labelled(NODES);
        draft.add(WIDTH_RANGES, &[0x00, 0x1F, width]);
        draft.add(WIDTH_RANGES, &[0x7F, 0x9F, width]);
        let name = format!("ranges of all control characters, of width {width}");
        cases.accepted(format!("{name}, and none as a glyph"), &draft);
        for value in CONTROLS {
            set_glyph(&mut draft, FIRST, value);
            let place = draft.place(GLYPHS, FIRST, 0);
            cases.refused(format!("{name}, and glyph {value:04X}"), &draft, 13, place);
        }
    }
}

/// A node whose label begins with U+001B, as pasted from a terminal.
fn pasted() -> Draft {
    let mut draft = labelled(NODES);
    set_glyph(&mut draft, FIRST, 0x1B);
    draft
}

fn with_a_wrong_length(cases: &mut Cases) {
    let words = pasted().to_words();
    let wanted = words.len();
    for (name, length) in [("more", wanted + 1), ("less", wanted - 1)] {
        let mut words = words.clone();
        words.resize(length, 0x41);
        let name = format!("glyph 001B and one word {name} than the tables");
        cases.refused_words(name, words, 3, wanted as u32);
    }
}

/// Code 4 over all words comes first.
fn with_a_glyph_that_is_none(cases: &mut Cases) {
    for value in [0xD800, 0xDFFF, CODE_POINT_LIMIT + 1, u32::MAX] {
        for (nth, side) in [(UNUSED_BEFORE, "before"), (UNUSED_AFTER, "after")] {
            let mut draft = pasted();
            set_glyph(&mut draft, nth, value);
            let name = format!("glyph 001B, and {value:04X} {side} it");
            cases.refused(name, &draft, 4, draft.place(GLYPHS, nth, 0));
        }
    }
    let mut draft = pasted();
    draft.add(WIDTH_RANGES, &[0x300, 0x36F, 1]);
    let place = draft.place(WIDTH_RANGES, 0, 2);
    cases.refused("glyph 001B, and a range of width 1", &draft, 4, place);
}

/// "so a sheet with a bad range still says 5"
fn with_a_bad_range(cases: &mut Cases) {
    let bad: [(&str, [u32; 3]); 4] = [
        ("upside down", [0x501, 0x500, 0]),
        ("not above the one before it", [0x36F, 0x370, 0]),
        ("that holds 005B", [0x5B, 0x5B, 0]),
        ("of all values", [0, CODE_POINT_LIMIT, 2]),
    ];
    for (name, range) in bad {
        let mut draft = pasted();
        draft.add(WIDTH_RANGES, &[0x300, 0x36F, 0]);
        draft.add(WIDTH_RANGES, &range);
        let name = format!("glyph 001B, and a range {name}");
        cases.refused(name, &draft, 5, draft.place(WIDTH_RANGES, 1, 0));
    }
}

/// A fault by its name, its code, and how it is made.
type Fault = (&'static str, u32, fn(&mut Draft));

const LATER_FAULTS: [Fault; 6] = [
    ("a corner below 0", 6, |draft| {
        let flags = path_flags(MULTI_SEGMENT);
        draft.add(EDGES, &edge_record([0, 3, 3, 1], flags, [0, 0, 3]));
    }),
    ("a doubled element", 7, |draft| draft.list(NODES, 0, 1, 1)),
    ("rows upside down", 8, |draft| {
        draft.tables[ELEMENTS][0][2] = 2
    }),
    ("a row that is not listed", 9, |draft| {
        draft.tables[NODES][0][1] = 2
    }),
    ("an unlisted node", 9, |draft| {
        draft.tables[ELEMENTS].clear()
    }),
    ("too small a run capacity", 10, |draft| {
        let flags = path_flags(CORNER);
        let edge = draft.add(EDGES, &edge_record([0, 1, 3, 1], flags, [1, 0, 0]));
        draft.list(EDGES, edge, 1, 1);
    }),
];

/// "and before the corners"; beside a letter the fault is what it is.
fn with_a_later_fault(cases: &mut Cases) {
    for (name, code, make) in LATER_FAULTS {
        let mut draft = labelled(NODES);
        make(&mut draft);
        let place = match code {
            6 => draft.place(EDGES, 0, 0),
            7 => draft.place(ELEMENTS, 1, 0),
            8 => draft.place(ELEMENTS, 0, 0),
            9 => draft.place(NODES, 0, 0),
            _ => RUN_CAPACITY_WORD as u32,
        };
        cases.refused(format!("glyph 0041, and {name}"), &draft, code, place);
        set_glyph(&mut draft, FIRST, 0x1B);
        let place = draft.place(GLYPHS, FIRST, 0);
        cases.refused(format!("glyph 001B, and {name}"), &draft, 13, place);
    }
}
