//! Code 5: "a width range has first > last, first not above the last before
//! it, or holds 0020, 0022, 005B or 005D".

use super::Cases;
use crate::draft::Draft;
use crate::layout::{CODE_POINT_LIMIT, WIDTH_RANGES};

pub fn add(cases: &mut Cases) {
    one_range(cases);
    fixed_characters(cases);
    ranges_in_order(cases);
    ranges_out_of_order(cases);
}

/// A range: its first and last code point, and its width.
type Range = [u32; 3];

fn image_of(ranges: &[Range]) -> Draft {
    let mut draft = Draft::blank_sheet(4, 0);
    for range in ranges {
        draft.add(WIDTH_RANGES, range);
    }
    draft
}

fn named(ranges: &[Range]) -> String {
    let shown = |[first, last, width]: &Range| format!("{first:04X}..{last:04X} of width {width}");
    let shown: Vec<String> = ranges.iter().map(shown).collect();
    format!("ranges {}", shown.join(", "))
}

fn good(cases: &mut Cases, ranges: &[Range]) {
    cases.accepted(named(ranges), &image_of(ranges));
}

/// Refused at the range of this number.
fn bad(cases: &mut Cases, ranges: &[Range], at: u32) {
    let draft = image_of(ranges);
    let place = draft.place(WIDTH_RANGES, at, 0);
    cases.refused(named(ranges), &draft, 5, place);
}

fn one_range(cases: &mut Cases) {
    // Nothing stands before the first range, so it may begin at 0.
    good(cases, &[[0, 0, 0]]);
    good(cases, &[[0, 0x1F, 2]]);
    good(cases, &[[0x300, 0x300, 0]]);
    good(cases, &[[0x5E, CODE_POINT_LIMIT, 2]]);
    for width in [0, 2] {
        bad(cases, &[[0x301, 0x300, width]], 0);
        bad(cases, &[[1, 0, width]], 0);
        bad(cases, &[[CODE_POINT_LIMIT, 0, width]], 0);
        bad(cases, &[[0, CODE_POINT_LIMIT, width]], 0);
    }
}

fn fixed_characters(cases: &mut Cases) {
    for width in [0, 2] {
        for fixed in [0x20, 0x22, 0x5B, 0x5D] {
            bad(cases, &[[fixed, fixed, width]], 0);
            bad(cases, &[[fixed - 1, fixed, width]], 0);
            bad(cases, &[[fixed, fixed + 1, width]], 0);
            bad(cases, &[[0, 0, width], [fixed, fixed, width]], 1);
        }
        // Just beside them.
        for [first, last] in [[0x1F, 0x1F], [0x21, 0x21], [0x23, 0x5A], [0x5C, 0x5C]] {
            good(cases, &[[first, last, width]]);
        }
    }
    let around_them = [[0, 0x1F, 0], [0x21, 0x21, 2], [0x23, 0x5A, 0]];
    good(cases, &around_them);
}

fn ranges_in_order(cases: &mut Cases) {
    good(cases, &[[0, 0, 0], [1, 1, 0]]);
    good(cases, &[[0x300, 0x30F, 0], [0x310, 0x31F, 0]]);
    good(cases, &[[0x300, 0x30F, 0], [0x310, 0x31F, 2]]);
    good(cases, &[[0x300, 0x30F, 2], [0x1100, 0x115F, 2]]);
    let at_the_end = [CODE_POINT_LIMIT, CODE_POINT_LIMIT, 0];
    good(cases, &[[0x300, CODE_POINT_LIMIT - 1, 2], at_the_end]);
}

fn ranges_out_of_order(cases: &mut Cases) {
    let first = [0x300, 0x30F, 0];
    let after = [0x400, 0x40F, 0];
    // Overlapping by one, equal, inside, around, starting alike, before.
    for second in [
        [0x30F, 0x31F, 2],
        first,
        [0x301, 0x302, 0],
        [0x2FF, 0x310, 0],
        [0x300, 0x300, 0],
        [0x2FF, 0x2FF, 0],
        // Upside down, but above the range before.
        [0x311, 0x310, 0],
    ] {
        bad(cases, &[first, second], 1);
    }
    bad(cases, &[[0, 0, 0], [0, 0, 0]], 1);
    // Held against the range just before: above the first of all is not enough.
    bad(cases, &[first, after, [0x310, 0x310, 0]], 2);
    bad(cases, &[first, after, [0x40F, 0x410, 0]], 2);
    // "its first word": of the first range at fault.
    bad(cases, &[first, [0x30F, 0x30F, 0], [0x20, 0x20, 0]], 1);
    bad(cases, &[[0x22, 0x22, 0], [0x20, 0x20, 0]], 0);
}
