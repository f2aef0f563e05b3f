//! Control characters in the glyph table, whether a label uses them or not: refusal 13,
//! unless an earlier rule is broken.

use super::{
    harmless_record, targets_of_code_10, targets_of_code_5, targets_of_code_6, targets_of_code_7,
    targets_of_code_8, targets_of_code_9_by_one_row, with_record,
};
use crate::codes::{Meant, Target};
use crate::dice::Dice;
use crate::draft::Draft;
use crate::layout::{
    CODE_POINT_LIMIT, EDGES, GLYPHS, LABEL_PRESENT_BIT, NODES, SUBGRAPHS, WIDTH_RANGES,
};

/// The first and the last of both ranges, and those beside them.
const AT_THE_LIMITS: [u32; 8] = [0x00, 0x01, 0x1E, 0x1F, 0x7F, 0x80, 0x9E, 0x9F];

/// Just outside of the two ranges.
const NEIGHBOURS: [u32; 4] = [0x20, 0x7E, 0xA0, 0xA1];

/// One image in so many gets control characters.
const ONE_IN: u32 = 7;

/// Any control character, those at the limits above all.
fn random_control(dice: &mut Dice) -> u32 {
    match dice.below(4) {
        0 | 1 => dice.pick(&AT_THE_LIMITS),
        2 => dice.below(0x20),
        _ => 0x7F + dice.below(0x21),
    }
}

/// Puts them in now and then; answers the place of the first.
pub fn sometimes_put_controls(dice: &mut Dice, draft: &mut Draft) -> Option<u32> {
    dice.one_in(ONE_IN).then(|| put_controls(dice, draft))
}

/// Puts one control character or several in place of glyphs, or one that no label uses
/// before or after all glyphs; answers the place of the first.
pub fn put_controls(dice: &mut Dice, draft: &mut Draft) -> u32 {
    let glyphs = draft.count(GLYPHS);
    let first = match dice.below(7) {
        0 if draft.has_room(GLYPHS) => put_before_all(dice, draft),
        1 if draft.has_room(GLYPHS) => put_after_all(dice, draft),
        _ if glyphs == 0 => put_after_all(dice, draft),
        2 => put_in_place(dice, draft, 0),
        3 => put_in_place(dice, draft, glyphs - 1),
        4 | 5 => {
            let any = dice.below(glyphs);
            put_in_place(dice, draft, any)
        }
        _ => put_several(dice, draft),
    };
    draft.place(GLYPHS, first, 0)
}

// Each of these answers the number of the first glyph that it made.

fn put_after_all(dice: &mut Dice, draft: &mut Draft) -> u32 {
    draft.add(GLYPHS, &[random_control(dice)])
}

/// Every label begins one glyph later.
fn put_before_all(dice: &mut Dice, draft: &mut Draft) -> u32 {
    draft.tables[GLYPHS].insert(0, vec![random_control(dice)]);
    for table in [NODES, SUBGRAPHS] {
        for record in &mut draft.tables[table] {
            record[4] = record[4].wrapping_add(1);
        }
    }
    let edges = draft.tables[EDGES].iter_mut();
    for edge in edges.filter(|edge| edge[4] & LABEL_PRESENT_BIT != 0) {
        edge[8] = edge[8].wrapping_add(1);
    }
    0
}

fn put_in_place(dice: &mut Dice, draft: &mut Draft, nth: u32) -> u32 {
    draft.tables[GLYPHS][nth as usize] = vec![random_control(dice)];
    nth
}

fn put_several(dice: &mut Dice, draft: &mut Draft) -> u32 {
    let glyphs = draft.count(GLYPHS);
    let first = dice.below(glyphs);
    for _ in 0..1 + dice.below(4) {
        let later = first + dice.below(glyphs - first);
        put_in_place(dice, draft, later);
    }
    put_in_place(dice, draft, first)
}

// ---- Images for the code ---------------------------------------------------

/// Images for code 13 out of an accepted one, also with a later fault; images with an
/// earlier fault, whose code wins; and what is just outside of the rule.
pub fn targets(dice: &mut Dice, base: &Draft) -> Vec<Target> {
    let parts = [
        targets_alone(dice, base),
        targets_in_labels(dice, base),
        targets_with_a_later_fault(dice, base),
        targets_with_a_bad_range(dice, base),
        targets_with_a_bad_glyph(dice, base),
        targets_just_outside(base),
    ];
    parts.concat()
}

fn with_controls(dice: &mut Dice, mut draft: Draft) -> Target {
    let place = put_controls(dice, &mut draft);
    (Meant::at(13, place), draft.to_words())
}

fn targets_alone(dice: &mut Dice, base: &Draft) -> Vec<Target> {
    let unused = base.place(GLYPHS, base.count(GLYPHS), 0);
    let as_unused = |control| {
        let words = with_record(base, GLYPHS, &[control]);
        (Meant::at(13, unused), words)
    };
    let mut targets = AT_THE_LIMITS.map(as_unused).to_vec();
    targets.extend((0..8).map(|_| with_controls(dice, base.clone())));
    targets
}

/// A thing that makes no ink, and a label of one control character.
fn targets_in_labels(dice: &mut Dice, base: &Draft) -> Vec<Target> {
    let label = [base.count(GLYPHS), 1];
    let [mut node, mut edge, mut subgraph] = [NODES, EDGES, SUBGRAPHS].map(harmless_record);
    node[4..6].copy_from_slice(&label);
    edge[4] |= LABEL_PRESENT_BIT;
    edge[8..10].copy_from_slice(&label);
    subgraph[4..6].copy_from_slice(&label);
    let labelled = |(table, record): (usize, Vec<u32>)| {
        let mut draft = base.clone();
        draft.add(table, &record);
        let glyph = put_after_all(dice, &mut draft);
        (
            Meant::at(13, draft.place(GLYPHS, glyph, 0)),
            draft.to_words(),
        )
    };
    let things = [(NODES, node), (EDGES, edge), (SUBGRAPHS, subgraph)];
    things.map(labelled).to_vec()
}

/// As a draft; the rules that these images break leave the length alone.
fn draft_of(words: &[u32]) -> Draft {
    Draft::from_words(words).expect("an image of the right length")
}

fn targets_with_a_later_fault(dice: &mut Dice, base: &Draft) -> Vec<Target> {
    let mut by_one_row = targets_of_code_9_by_one_row(base);
    by_one_row.truncate(6);
    let faulty = [
        targets_of_code_6(base),
        targets_of_code_7(dice, base),
        targets_of_code_8(base),
        by_one_row,
        targets_of_code_10(base),
    ];
    let faulty = faulty.iter().flatten();
    faulty
        .map(|words| with_controls(dice, draft_of(words)))
        .collect()
}

fn targets_with_a_bad_range(dice: &mut Dice, base: &Draft) -> Vec<Target> {
    let faulty = targets_of_code_5(dice, base);
    let faulty = faulty.iter();
    faulty
        .map(|words| (Meant::code(5), with_controls(dice, draft_of(words)).1))
        .collect()
}

/// What is no scalar value, before a control character and after it.
fn targets_with_a_bad_glyph(dice: &mut Dice, base: &Draft) -> Vec<Target> {
    let mut targets = Vec::new();
    for bad in [0xD800, 0xDFFF, CODE_POINT_LIMIT + 1] {
        let mut before = base.clone();
        let nth = before.add(GLYPHS, &[bad]);
        put_after_all(dice, &mut before);
        targets.push((
            Meant::at(4, before.place(GLYPHS, nth, 0)),
            before.to_words(),
        ));
        let mut after = base.clone();
        put_controls(dice, &mut after);
        let nth = after.add(GLYPHS, &[bad]);
        targets.push((Meant::at(4, after.place(GLYPHS, nth, 0)), after.to_words()));
    }
    targets
}

/// The neighbours as glyphs, and control characters in ranges alone.
fn targets_just_outside(base: &Draft) -> Vec<Target> {
    let accepted = |words: Vec<u32>| (Meant::at(0, 0), words);
    let as_unused = |glyph| accepted(with_record(base, GLYPHS, &[glyph]));
    let mut targets = NEIGHBOURS.map(as_unused).to_vec();
    let mut in_ranges = Draft::blank_sheet(1, 1);
    in_ranges.add(WIDTH_RANGES, &[0x00, 0x1F, 0]);
    in_ranges.add(WIDTH_RANGES, &[0x7F, 0x9F, 2]);
    in_ranges.add(GLYPHS, &[0x41]);
    targets.push(accepted(in_ranges.to_words()));
    targets
}
