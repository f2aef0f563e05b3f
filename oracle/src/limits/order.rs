//! Which of several faults is named: of two codes the one that is decided first,
//! of one code the first place.

use super::{one_of_each, Cases};
use crate::codes::CHECK_CODES;
use crate::draft::{edge_record, Draft};
use crate::layout::{
    path_flags, CORNER, EDGES, ELEMENTS, GLYPHS, HEADER_WORDS, MULTI_SEGMENT, NODES, RECORD_WORDS,
    RUN_CAPACITY_WORD, SIMPLE, TABLES, TABLE_NAMES, WIDTH_RANGES,
};

pub fn add(cases: &mut Cases) {
    cases.accepted_with_runs("whole image for the pairs of codes", &whole(), 2);
    let codes = &CHECK_CODES[1..];
    for (nth, code) in codes.iter().enumerate() {
        refused_for(cases, &[*code]);
        for later in &codes[nth + 1..] {
            refused_for(cases, &[*code, *later]);
        }
        let all = &codes[nth..];
        if all.len() > 2 {
            refused_for(cases, all);
        }
    }
    two_fields(cases);
    two_tables(cases);
}

/// Accepted, with something in it for every code to find fault with.
fn whole() -> Draft {
    let mut draft = Draft::blank_sheet(4, 6);
    draft.head[RUN_CAPACITY_WORD] = 2;
    draft.add(NODES, &[0, 2, 1, 1, 0, 0, SIMPLE << 30, 0, 0]);
    let flags = path_flags(CORNER);
    draft.add(EDGES, &edge_record([0, 2, 3, 2], flags, [2, 0, 0]));
    let flags = path_flags(MULTI_SEGMENT);
    draft.add(EDGES, &edge_record([0, 3, 3, 2], flags, [0, 0, 0]));
    draft.list(NODES, 0, 2, 2);
    draft.list(EDGES, 0, 2, 2);
    draft.list(EDGES, 1, 2, 2);
    draft.add(WIDTH_RANGES, &[0x300, 0x36F, 0]);
    draft.add(WIDTH_RANGES, &[0x4E00, 0x9FFF, 2]);
    draft
}

/// Breaks the rule of this code and no rule that is decided before it. Codes 1 and
/// 3 are about the length, which a draft always has right.
fn break_rule(draft: &mut Draft, code: u32) {
    match code {
        2 => draft.head[0] = 1_025,
        // The very last word of the image.
        4 => draft.tables[WIDTH_RANGES][1][2] = 1,
        5 => draft.tables[WIDTH_RANGES][0][0] = 0x370,
        // A glyph that no label uses.
        13 => {
            draft.add(GLYPHS, &[0x1B]);
        }
        6 => draft.tables[EDGES][1][7] = 3,
        7 => draft.list(NODES, 0, 2, 2),
        8 => draft.tables[ELEMENTS][0][2] = 3,
        9 => draft.tables[NODES][0][1] = 3,
        10 => draft.head[RUN_CAPACITY_WORD] = 1,
        _ => {}
    }
}

fn place_of(draft: &Draft, code: u32) -> u32 {
    match code {
        3 => draft.to_words().len() as u32,
        4 => draft.place(WIDTH_RANGES, 1, 2),
        5 => draft.place(WIDTH_RANGES, 0, 0),
        13 => draft.place(GLYPHS, 0, 0),
        6 => draft.place(EDGES, 1, 0),
        7 => draft.place(ELEMENTS, 3, 0),
        8 => draft.place(ELEMENTS, 0, 0),
        9 => draft.place(NODES, 0, 0),
        10 => RUN_CAPACITY_WORD as u32,
        _ => 0,
    }
}

/// An image broken for these codes, in the order in which they are decided, gets
/// the first of them.
fn refused_for(cases: &mut Cases, codes: &[u32]) {
    let (words, place) = broken_for(codes);
    let name = format!("an image broken for {codes:?}");
    cases.refused_words(name, words, codes[0], place);
}

/// The image, and the place of the first code.
pub fn broken_for(codes: &[u32]) -> (Vec<u32>, u32) {
    let mut draft = whole();
    for code in codes {
        break_rule(&mut draft, *code);
    }
    let place = place_of(&draft, codes[0]);
    let mut words = draft.to_words();
    if codes.contains(&3) {
        words.push(0);
    }
    if codes.contains(&1) {
        words.truncate(HEADER_WORDS - 1);
    }
    (words, place)
}

/// "first such word" inside a record: every word from this field on is at
/// fault.
fn two_fields(cases: &mut Cases) {
    // Fields that can be at fault in a node without self-loop; its label count
    // offends at the start.
    for field in [0, 1, 2, 3, 4, 6, 7, 8] {
        let mut draft = one_of_each();
        draft.tables[NODES][0][field..].fill(u32::MAX);
        let name = format!("node at fault from field {field} on");
        cases.refused(name, &draft, 4, draft.place(NODES, 0, field));
    }
}

/// "first such word" over the tables: the last field that can be at fault in
/// one table, and all of the tables after it.
fn two_tables(cases: &mut Cases) {
    let last_fields = [8, 9, 6, 3, 3, 1, 0, 2];
    for (table, field) in last_fields.into_iter().enumerate() {
        let mut draft = one_of_each();
        draft.tables[table][0][field] = u32::MAX;
        for later in table + 1..TABLES {
            draft.tables[later][0] = vec![u32::MAX; RECORD_WORDS[later]];
        }
        let name = format!("{} at fault and all tables after it", TABLE_NAMES[table]);
        cases.refused(name, &draft, 4, draft.place(table, 0, field));
    }
    let mut draft = one_of_each();
    let again = vec![u32::MAX; RECORD_WORDS[NODES]];
    draft.add(NODES, &again);
    draft.add(NODES, &again);
    let place = draft.place(NODES, 1, 0);
    cases.refused("second and third node at fault", &draft, 4, place);
}
